"""What ipykernel's own tests of its comms try, which Debian doesn't ship, written anew, a behaviour a test; and what
else users' code does with a comm. Each test has a kernel of its own in this process, with the stock manager, or where
ROLGUNAI_INSTALL is set with the one that rolgunai.comms.install puts in."""

import logging
import os
import warnings
from unittest.mock import MagicMock

import ipykernel.comm
import pytest
import traitlets
import zmq
from ipykernel.ipkernel import IPythonKernel
from jupyter_client.session import Session

HEADER = {"msg_type": "", "msg_id": "1"}


class Wire:
    """A kernel, and what it sends on iopub."""

    def __init__(self):
        self.context = zmq.Context()
        self.iopub, self.page = self.context.socket(zmq.PUB), self.context.socket(zmq.SUB)
        self.iopub.bind("inproc://iopub")
        self.page.connect("inproc://iopub")
        self.page.subscribe(b"")
        log = logging.getLogger("kernel")
        self.kernel = IPythonKernel.instance(session=Session(), iopub_socket=self.iopub, user_ns={}, log=log)
        if os.environ.get("ROLGUNAI_INSTALL"):
            import rolgunai.comms

            rolgunai.comms.install(self.kernel)
        self.manager = self.kernel.comm_manager

    def came(self):
        """The types of what was sent since."""
        found = []
        while self.page.poll(50):
            found.append(self.kernel.session.recv(self.page)[1]["header"]["msg_type"])
        return found

    def hear(self, kind, comm_id, **content):
        """Hands the manager a frontend's message."""
        message = {"header": {**HEADER, "msg_type": kind}, "metadata": {}, "buffers": []}
        message["content"] = {"comm_id": comm_id, "data": {}, **content}
        getattr(self.manager, kind)(None, None, message)

    def end(self):
        for comm in list(self.manager.comms.values()):
            comm.close()
        for name in list(self.manager.targets):
            self.manager.unregister_target(name, None)
        self.kernel.shell.clear_instance()
        self.kernel.clear_instance()
        self.context.destroy(linger=0)


@pytest.fixture
def wire():
    made = Wire()
    yield made
    made.end()


def made(*words, **keys):
    """A comm, by the name that users' code has it by."""
    with warnings.catch_warnings():
        warnings.simplefilter("ignore", DeprecationWarning)
        return ipykernel.comm.Comm(*words, **keys)


def test_a_comm_opens(wire):
    comm = made(target_name="bar")
    assert (comm.target_name, wire.came(), wire.manager.comms) == ("bar", ["comm_open"], {comm.comm_id: comm})


def test_a_comm_has_its_kernel(wire):
    assert made(kernel=wire.kernel).kernel is wire.kernel


def test_a_comm_takes_the_running_kernel(wire):
    assert made().kernel is wire.kernel


def test_a_comm_of_a_frontend_says_nothing(wire):
    comm = made("bar", primary=False)
    assert (comm._closed, wire.came()) == (False, [])


def test_send_and_close(wire):
    comm = made("bar")
    comm.send({"a": 1})
    comm.close()
    assert (wire.came(), wire.manager.comms) == (["comm_open", "comm_msg", "comm_close"], {})


def test_close_is_said_once(wire):
    comm = made("bar")
    comm.close()
    comm.close()
    assert wire.came() == ["comm_open", "comm_close"]


def test_send_after_close_raises_nothing(wire):
    comm = made("bar")
    comm.close()
    comm.send({"a": 1})


def test_send_after_a_frontend_closed_raises_nothing(wire):
    comm = made("bar")
    wire.hear("comm_close", comm.comm_id)
    comm.send({"a": 1})


def test_send_in_on_close_raises_nothing(wire):
    comm, said = made("bar"), []
    comm.on_close(lambda message: (comm.send({"a": 1}), said.append(1)))
    wire.hear("comm_close", comm.comm_id)
    assert said == [1]


def test_open_of_an_open_comm(wire):
    comm = made("bar")
    comm.open({})
    comm.send({})
    assert (wire.came(), list(wire.manager.comms)) == (["comm_open", "comm_open", "comm_msg"], [comm.comm_id])


def test_open_after_close(wire):
    comm = made("bar")
    comm.close()
    comm.open({})
    assert (wire.came(), list(wire.manager.comms)) == (["comm_open", "comm_close", "comm_open"], [comm.comm_id])


def test_callbacks_by_hand(wire):
    comm, heard = made("bar"), []
    comm.on_msg(heard.append)
    comm.on_close(heard.append)
    comm.handle_msg({})
    comm.handle_close({})
    assert heard == [{}, {}]


def test_a_message_of_any_type(wire):
    comm = made("bar")
    publish = getattr(comm, "publish_msg", None) or comm._publish_msg
    publish("foo")
    assert wire.came() == ["comm_open", "foo"]


def test_a_target_hears_of_an_open(wire):
    heard = []
    wire.manager.register_target("foo", lambda comm, message: heard.append((comm.comm_id, message["content"]["data"])))
    wire.hear("comm_open", "a1", target_name="foo", data={"n": 1})
    assert (heard, list(wire.manager.comms), wire.came()) == ([("a1", {"n": 1})], ["a1"], [])


def test_a_target_that_closes(wire):
    wire.manager.register_target("foo", lambda comm, message: comm.close())
    wire.hear("comm_open", "a1", target_name="foo")
    assert (wire.came(), wire.manager.comms) == (["comm_close"], {})


def test_a_target_that_raises(wire):
    wire.manager.register_target("fizz", lambda comm, message: 1 / 0)
    wire.hear("comm_open", "a1", target_name="fizz")
    assert (wire.came(), wire.manager.comms) == (["comm_close"], {})


def test_an_unknown_target(wire):
    wire.hear("comm_open", "a1", target_name="bar")
    assert (wire.came(), wire.manager.comms) == (["comm_close"], {})


def test_a_target_by_an_import_string(wire):
    wire.manager.register_target("dumps", "json.dumps")
    assert wire.manager.targets["dumps"].__name__ == "dumps"


def test_unregister_target_gives_it(wire):
    def target(comm, message):
        pass

    wire.manager.register_target("foo", target)
    assert (wire.manager.unregister_target("foo", target), wire.manager.targets) == (target, {})


def test_unregister_of_an_unknown_target(wire):
    with pytest.raises(KeyError):
        wire.manager.unregister_target("foo", None)


def test_get_comm(wire):
    comm = made("bar")
    assert wire.manager.get_comm(comm.comm_id) is comm
    assert wire.manager.get_comm("foo") is None


def test_register_comm_again(wire):
    comm = made("bar")
    assert wire.manager.register_comm(comm) == comm.comm_id
    assert wire.manager.get_comm(comm.comm_id) is comm


def test_register_comm_after_unregister(wire):
    comm, heard = made("bar"), []
    comm.on_msg(heard.append)
    wire.manager.unregister_comm(comm)
    wire.manager.register_comm(comm)
    wire.hear("comm_msg", comm.comm_id)
    assert len(heard) == 1


def test_unregister_of_an_unknown_comm(wire):
    comm = made("bar")
    comm.close()
    with pytest.raises(KeyError):
        wire.manager.unregister_comm(comm)


def test_a_message_is_heard(wire):
    comm, heard = made("bar"), []
    comm.on_msg(heard.append)
    wire.hear("comm_msg", comm.comm_id, data={"n": 1})
    assert [message["content"]["data"] for message in heard] == [{"n": 1}]


def test_a_message_to_nobody(wire):
    wire.hear("comm_msg", "foo")
    wire.hear("comm_close", "foo")
    assert wire.came() == []


def test_a_callback_that_raises(wire):
    comm = made("bar")
    comm.on_msg(lambda message: 1 / 0)
    wire.hear("comm_msg", comm.comm_id)
    assert list(wire.manager.comms) == [comm.comm_id]


def test_a_close_is_heard(wire):
    comm, heard = made("bar"), []
    comm.on_close(heard.append)
    wire.hear("comm_close", comm.comm_id)
    assert (len(heard), comm._closed, wire.manager.comms) == (1, True, {})
    assert wire.came() == ["comm_open"]


def test_messages_without_a_header(wire):
    heard = []
    wire.manager.register_target("foo", lambda comm, message: (heard.append("open"), comm.on_msg(heard.append)))
    wire.manager.comm_open(None, None, {"content": {"comm_id": "a1", "target_name": "foo"}})
    wire.manager.comm_msg(None, None, {"content": {"comm_id": "a1"}})
    wire.manager.comm_close(None, None, {"content": {"comm_id": "a1"}})
    assert (heard, wire.manager.comms) == (["open", {"content": {"comm_id": "a1"}}], {})


def test_an_open_of_an_id_in_use(wire):
    comm, heard = made("bar"), []
    wire.manager.register_target("foo", lambda comm, message: heard.append(comm))
    wire.hear("comm_open", comm.comm_id, target_name="foo")
    assert heard == [wire.manager.get_comm(comm.comm_id)]


def test_a_comm_of_an_id_in_use(wire):
    made("bar", comm_id="fixed")
    comm = made("bar", comm_id="fixed")
    assert wire.manager.get_comm("fixed") is comm


def test_a_manager_made_anew(wire):
    wire.kernel.comm_manager = manager = ipykernel.comm.CommManager(kernel=wire.kernel)
    comm, heard = made("bar"), []
    comm.on_msg(heard.append)
    manager.register_comm(comm)
    manager.comm_msg(None, None, {"header": HEADER, "content": {"comm_id": comm.comm_id, "data": {}}})
    assert (len(heard), manager.get_comm(comm.comm_id)) == (1, comm)


def test_the_manager_is_ipykernels(wire):
    assert isinstance(wire.manager, ipykernel.comm.CommManager)


def test_a_comm_that_has_traits(wire):
    class Counts(ipykernel.comm.Comm):
        n = traitlets.Int(3)

    with warnings.catch_warnings():
        warnings.simplefilter("ignore", DeprecationWarning)
        comm = Counts(target_name="bar")
    assert (comm.n, comm.has_trait("n"), wire.came()) == (3, True, ["comm_open"])


def test_a_mock_of_a_comm(wire):
    mock = MagicMock(spec=ipykernel.comm.Comm)
    mock.comm_id = "a1"
    assert (mock.comm_id, mock.kernel is None) == ("a1", False)


def test_a_second_kernel(wire):
    made("bar").close()
    wire.came()
    wire.end()
    second = Wire()
    try:
        made("bar")
        assert second.came() == ["comm_open"]
    finally:
        second.end()
        wire.__init__()  # for the fixture's end
