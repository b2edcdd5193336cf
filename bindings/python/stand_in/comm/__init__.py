"""A stand-in for the package `comm`, for tests where that isn't: the same public interface, written of it."""

from comm.base_comm import BaseComm, CommManager

_manager = None


class DummyComm(BaseComm):
    def publish_msg(self, msg_type, data=None, metadata=None, buffers=None, **keys):
        pass


def create_comm(*parts, **keys):
    return DummyComm(*parts, **keys)


def get_comm_manager():
    global _manager
    _manager = _manager or CommManager()
    return _manager
