// What xeus 2.4, 5 and 6 each want of an interpreter and a context beside running cells: nothing of comms.
#ifndef INTERPRETER_HPP
#define INTERPRETER_HPP

#include <xeus/xeus.hpp>
#include <xeus/xhelper.hpp>
#include <xeus/xinterpreter.hpp>
#include <xeus/xkernel.hpp>
#include <xeus/xkernel_configuration.hpp>
#if XEUS_VERSION_MAJOR < 3
#include <zmq.hpp>
inline auto make_context() { return xeus::make_context<zmq::context_t>(); }
#else
#include <xeus-zmq/xzmq_context.hpp>
inline auto make_context() { return xeus::make_zmq_context(); }
#endif

/// An interpreter of cells in a language without values.
class cell_interpreter : public xeus::xinterpreter {
public:
  cell_interpreter() { xeus::register_interpreter(this); }

protected:
  /// Runs a cell; what it throws is the cell's error.
  virtual void run(const std::string &code) = 0;
  /// Ends what has `xcomm`s: xeus ends its own table of them before it ends the interpreter.
  virtual void end() = 0;
  void print(const std::string &text) { publish_stream("stdout", text); }

private:
  nl::json ran(const std::string &code) {
    try {
      run(code);
    } catch (const std::exception &found) {
      publish_execution_error("error", found.what(), {});
      return xeus::create_error_reply("error", found.what());
    }
    return xeus::create_successful_reply();
  }

#if XEUS_VERSION_MAJOR < 3
  nl::json execute_request_impl(int, const std::string &code, bool, bool, nl::json, bool) override { return ran(code); }
#else
  void execute_request_impl(send_reply_callback reply, int, const std::string &code, xeus::execute_request_config,
                            nl::json) override {
    reply(ran(code));
  }
#endif
#if XEUS_VERSION_MAJOR < 6
  void shutdown_request_impl() override { end(); }
  nl::json kernel_info_request_impl() override { return xeus::create_info_reply("5.3", "words", "1", "words", "1"); }
#else
  nl::json shutdown_request_impl(bool restart) override {
    end();
    return xeus::create_shutdown_reply(restart);
  }
  nl::json interrupt_request_impl() override { return xeus::create_interrupt_reply(); }
  nl::json kernel_info_request_impl() override { return xeus::create_info_reply("words", "1", "words", "1"); }
#endif
  nl::json complete_request_impl(const std::string &, int at) override {
    return xeus::create_complete_reply(nl::json::array(), at, at);
  }
  nl::json inspect_request_impl(const std::string &, int, int) override { return xeus::create_inspect_reply(); }
  nl::json is_complete_request_impl(const std::string &) override { return xeus::create_is_complete_reply("complete"); }
};

#endif
