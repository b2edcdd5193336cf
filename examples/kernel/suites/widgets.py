"""Runs the tests that Debian's packages of ipywidgets have, by pytest, in a cell of the kernel that runs this. Where
the tests bring stand-ins for comms, their widgets get comms of the kernel's manager, which keep what is sent in
`messages` besides, as the stand-ins do."""

import importlib
import pathlib

import ipywidgets
from outcomes import run


def comms_for_6():
    """Has the tests of ipywidgets 6 leave the widgets their comms."""
    tests = importlib.import_module("ipywidgets.widgets.tests")
    stand_ins = tests.setup_test_comm

    def setup_test_comm():
        stand_ins()
        del tests.Widget._comm_default
        del tests._widget_attrs["_comm_default"]  # what the teardown puts back

    tests.setup_test_comm = setup_test_comm


def comms_for_8():
    """Has the tests of ipywidgets 8 take comms that keep what is sent."""
    utils = importlib.import_module("ipywidgets.widgets.tests.utils")

    def create_comm(*parts, **keys):
        made = utils.orig_create_comm(*parts, **keys)
        made.messages, send = [], made.send

        def kept(*parts, **keys):
            made.messages.append((parts, keys))
            return send(*parts, **keys)

        made.send = kept
        return made

    utils.dummy_create_comm, utils.dummy_get_comm_manager = create_comm, utils.orig_get_comm_manager


def updates_by_the_manager(manager):
    """Has `set_state`, which the tests call, go the way of a frontend's update: through the kernel's comm manager."""
    from ipywidgets.widgets.widget import Widget, _remove_buffers

    set_state, amid = Widget.set_state, []

    def sent(widget, sync_data):
        if amid:
            return set_state(widget, sync_data)
        state, buffer_paths, buffers = _remove_buffers(sync_data)
        data = {"method": "update", "state": state, "buffer_paths": buffer_paths}
        header, content = {"msg_type": "comm_msg", "msg_id": "1"}, {"comm_id": widget.comm.comm_id, "data": data}
        amid.append(widget)
        try:
            manager.comm_msg(None, None, {"header": header, "metadata": {}, "content": content, "buffers": buffers})
        finally:
            amid.pop()

    Widget.set_state = sent


def widgets(file, manager=None):
    """Runs the tests; with a manager, frontends' updates go through it."""
    folder = pathlib.Path(ipywidgets.__file__).parent
    if int(ipywidgets.__version__.split(".")[0]) < 7:
        comms_for_6()
    else:
        comms_for_8()
    if manager is not None:
        updates_by_the_manager(manager)
    run(file, [str(path) for path in (folder / "tests", folder / "widgets/tests") if path.is_dir()])
