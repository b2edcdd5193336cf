"""The two classes of `comm` that kernels build on."""

import contextlib
import logging
import uuid

import comm
from traitlets.utils.importstring import import_item

logger = logging.getLogger("Comm")


class BaseComm:
    """A comm; a subclass has `publish_msg`."""

    def __init__(
        self,
        target_name="comm",
        data=None,
        metadata=None,
        buffers=None,
        comm_id=None,
        primary=True,
        target_module=None,
        topic=None,
        _open_data=None,
        _close_data=None,
        **kwargs,
    ):
        super().__init__(**kwargs)
        self.comm_id = comm_id or uuid.uuid4().hex
        self.primary, self.target_name, self.target_module = primary, target_name, target_module
        self.topic = topic or ("comm-%s" % self.comm_id).encode("ascii")
        self._open_data, self._close_data = _open_data or {}, _close_data or {}
        self._msg_callback = self._close_callback = None
        self._closed = True
        if self.primary:
            self.open(data=data, metadata=metadata, buffers=buffers)
        else:
            self._closed = False

    def publish_msg(self, msg_type, data=None, metadata=None, buffers=None, **keys):
        raise NotImplementedError("publish_msg")

    def __del__(self):
        with contextlib.suppress(Exception):
            self.close(deleting=True)

    def open(self, data=None, metadata=None, buffers=None):
        manager = comm.get_comm_manager()
        if manager is None:
            raise RuntimeError("Comms cannot be opened without a comm_manager.")
        manager.register_comm(self)
        keys = {"target_name": self.target_name, "target_module": self.target_module}
        try:
            data = self._open_data if data is None else data
            self.publish_msg("comm_open", data=data, metadata=metadata, buffers=buffers, **keys)
            self._closed = False
        except Exception:
            manager.unregister_comm(self)
            raise

    def close(self, data=None, metadata=None, buffers=None, deleting=False):
        if self._closed:
            return
        self._closed = True
        data = self._close_data if data is None else data
        self.publish_msg("comm_close", data=data, metadata=metadata, buffers=buffers)
        if not deleting:
            comm.get_comm_manager().unregister_comm(self)

    def send(self, data=None, metadata=None, buffers=None):
        self.publish_msg("comm_msg", data=data, metadata=metadata, buffers=buffers)

    def on_close(self, callback):
        self._close_callback = callback

    def on_msg(self, callback):
        self._msg_callback = callback

    def handle_close(self, msg):
        if self._close_callback:
            self._close_callback(msg)

    def handle_msg(self, msg):
        if self._msg_callback:
            self._msg_callback(msg)


class CommManager:
    def __init__(self):
        self.comms, self.targets = {}, {}

    def register_target(self, target_name, f):
        self.targets[target_name] = import_item(f) if isinstance(f, str) else f

    def unregister_target(self, target_name, f):
        return self.targets.pop(target_name)

    def register_comm(self, comm):
        self.comms[comm.comm_id] = comm
        return comm.comm_id

    def unregister_comm(self, comm):
        self.comms.pop(comm.comm_id)

    def get_comm(self, comm_id):
        try:
            return self.comms[comm_id]
        except KeyError:
            logger.warning("No such comm: %s", comm_id)
            return None

    def comm_open(self, stream, ident, msg):
        content = msg["content"]
        keys = {"comm_id": content["comm_id"], "primary": False, "target_name": content["target_name"]}
        made = comm.create_comm(**keys)
        self.register_comm(made)
        try:
            self.targets[made.target_name](made, msg)
        except Exception:
            logger.error("Exception opening comm with target: %s", made.target_name, exc_info=True)
            made.close()

    def comm_msg(self, stream, ident, msg):
        made = self.get_comm(msg["content"]["comm_id"])
        if made is not None:
            try:
                made.handle_msg(msg)
            except Exception:
                logger.error("Exception in comm_msg for %s", made.comm_id, exc_info=True)

    def comm_close(self, stream, ident, msg):
        made = self.get_comm(msg["content"]["comm_id"])
        if made is not None:
            made._closed = True
            del self.comms[made.comm_id]
            made.handle_close(msg)
