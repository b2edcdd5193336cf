"""A slider in two kernels, by what is installed alone: in the stock kernel of ipykernel, after the lines of the file
that is named, and in the kernel that the package installs. A frontend moves it to 8, and the kernel has to see it.

    python slider_in_kernels.py LINES.py
"""

import pathlib
import sys

from jupyter_client.manager import start_new_kernel

SHOWN = (
    "from rolgunai.comms import CommManager\n"
    "print(isinstance(get_ipython().kernel.comm_manager, CommManager), slider.value)"
)
PLAIN = "import ipywidgets\nslider = ipywidgets.IntSlider(3)"


def ran(client, code):
    """What a cell prints, and the ids of the comms that it opens."""
    texts, opened = [], []

    def hear(message):
        kind, content = message["msg_type"], message["content"]
        if kind == "stream":
            texts.append(content["text"])
        elif kind == "error":
            texts.append("\n".join(content["traceback"]))
        elif kind == "comm_open":
            opened.append(content["comm_id"])

    client.execute_interactive(code, output_hook=hear, timeout=60)
    return "".join(texts), opened


def moved(kernel, lines):
    """Runs the lines, moves the slider that they make as a frontend does, and says what the kernel sees of it."""
    manager, client = start_new_kernel(kernel_name=kernel, startup_timeout=60)
    try:
        said, opened = ran(client, lines)
        slider = ran(client, "print(slider.comm.comm_id)")[0].strip()
        if slider not in opened:
            return f"{said}no comm_open of the slider {slider}, but of {opened}"
        data = {"method": "update", "state": {"value": 8}, "buffer_paths": []}
        client.shell_channel.send(client.session.msg("comm_msg", {"comm_id": slider, "data": data}))
        return said + ran(client, SHOWN)[0]
    finally:
        client.stop_channels()
        manager.shutdown_kernel(now=True)


def main():
    lines = pathlib.Path(sys.argv[1]).read_text()
    seen = {kernel: moved(kernel, code) for kernel, code in (("python3", lines), ("rolgunai", PLAIN))}
    print(seen)
    return 0 if set(seen.values()) == {"True 8\n"} else 1


if __name__ == "__main__":
    sys.exit(main())
