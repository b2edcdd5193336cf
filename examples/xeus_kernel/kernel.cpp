// A kernel over xeus whose comms are Rolgunai's. A cell is `gauge 1.5`, `set 4`, `value`, `close`, `drop`, `note TEXT`.
#include "interpreter.hpp"
#include "rolgunai_xeus.hpp"

#include <map>
#include <memory>
#include <sstream>

/// A comm of the kernel's. Only an xcomm that was moved to ends well: xeus leaves unset whether another was moved from.
xeus::xcomm made(xeus::xcomm_manager &comms, const std::string &target) {
  xeus::xcomm comm(comms.target(target));
  return xeus::xcomm(std::move(comm));
}

/// A widget of the kernel's own: a number that pages and cells move.
class gauge {
public:
  gauge(xeus::xcomm_manager &comms, double value) : comm_(made(comms, "jupyter.widget")), value_(value) {
    comm_.on_message([this](xeus::xmessage message) { // an update or a custom message, checked; `data` is an object
      value_ = message.content()["data"].value("/state/value"_json_pointer, value_);
    });
    comm_.open({{"version", "2.1.0"}}, {{"state", {{"value", value}}}, {"buffer_paths", nl::json::array()}}, {});
  }
  void set(double value) {
    const nl::json none = nl::json::array();
    comm_.send(nl::json::object(), {{"method", "update"}, {"state", {{"value", value}}}, {"buffer_paths", none}}, {});
    value_ = value; // not where the manager refuses it
  }
  void close() { comm_.close(nl::json::object(), nl::json::object(), {}); }
  double value() const { return value_; }
  std::string id() const { return comm_.id().c_str(); }

private:
  xeus::xcomm comm_;
  double value_;
};

class words : public cell_interpreter {
  void configure_impl() override {
    for (const char *name : {"jupyter.widget", "notes"}) // no page opens one here: it would end at once, and be closed
      comm_manager().register_comm_target(name, [](xeus::xcomm &&, xeus::xmessage) {});
    comm_manager().register_comm_target("doubler", [this](xeus::xcomm &&opened, xeus::xmessage) {
      ended_.reset(); // before the new one is kept, which may have its id
      const auto kept = std::make_shared<xeus::xcomm>(std::move(opened));
      kept->on_message([comm = kept.get()](xeus::xmessage message) {
        comm->send(nl::json::object(), {{"twice", 2 * message.content()["data"].value("n", 0.0)}}, {});
      });
      kept->on_close([this, id = kept->id()](xeus::xmessage) { ended_ = std::move(doublers_[id]); });
      doublers_[kept->id()] = kept;
    });
  }
  void run(const std::string &code) override {
    std::istringstream cell(code);
    std::string word, rest;
    cell >> word >> std::ws;
    std::getline(cell, rest);
    if (word == "gauge") gauge_ = std::make_unique<gauge>(comm_manager(), std::stod(rest)), print(gauge_->id());
    else if (word == "note") made(comm_manager(), "notes").open(nl::json::object(), {{"text", rest}}, {});
    else if (word == "drop") gauge_.reset();
    else if (!gauge_) throw std::runtime_error("there is no gauge");
    else if (word == "set") gauge_->set(std::stod(rest));
    else if (word == "close") gauge_->close();
    else print(nl::json(gauge_->value()).dump());
  }
  void end() override { gauge_.reset(), doublers_.clear(), ended_.reset(); }

  std::unique_ptr<gauge> gauge_;
  std::map<xeus::xguid, std::shared_ptr<xeus::xcomm>> doublers_;
  std::shared_ptr<xeus::xcomm> ended_; // the last one, whose on_close runs as it ends
};

int main(int argc, char *argv[]) {
  xeus::xkernel kernel(xeus::load_configuration(xeus::extract_filename(argc, argv)), xeus::get_user_name(),
                       make_context(), std::make_unique<words>(), rolgunai::make_xserver);
  kernel.start();
}
