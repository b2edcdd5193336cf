"""A test suite for the comms of any Jupyter kernel, over ZeroMQ, as a frontend sees them.

    python -m rolgunai.conformance KERNEL             # KERNEL as `jupyter kernelspec list` names it
    pytest --pyargs rolgunai.conformance --kernel KERNEL

It starts the kernel and plays scenarios (`scenarios/*.txt`): what is sent, and what must come by 'Messaging in Jupyter'
5.3 and the 'Jupyter widgets messaging protocol' 2.1. Where these determine the answer it is the proved manager's, to
which the same messages are handed. What a scenario needs in the kernel is a cell in its language (`cells/*.txt`).
"""
