"""The scenarios as tests of pytest: one for each, skipped where there is no --kernel."""

from __future__ import annotations

from collections.abc import Iterator
from pathlib import Path
from typing import Any

import pytest
from jupyter_client.kernelspec import NoSuchKernel

from rolgunai.conformance.cells import cells_for
from rolgunai.conformance.frontend import Frontend, NotAnswering
from rolgunai.conformance.play import FAILED, SKIPPED, Player
from rolgunai.conformance.scenario import Scenario, scenarios


@pytest.fixture(scope="module")
def player(request: Any) -> Iterator[Player]:
    option = request.config.getoption
    if not option("--kernel", None):
        pytest.skip("no --kernel")
    try:
        frontend = Frontend(option("--kernel"), option("--kernel-timeout"), option("--kernels"))
    except (NoSuchKernel, NotAnswering) as error:
        pytest.fail(f"{option('--kernel')} doesn't start: {error}", pytrace=False)
    cells = cells_for(frontend.language(), Path(option("--cells")) if option("--cells") else None)
    yield Player(frontend, cells, option("--storm"))
    frontend.close()


@pytest.mark.parametrize("scenario", list(scenarios()), ids=lambda scenario: f"{scenario.group}/{scenario.name}")
def test_comms(player: Player, scenario: Scenario) -> None:
    result = player.play(scenario)
    if result.outcome == SKIPPED:
        pytest.skip("; ".join(result.reasons))
    if result.outcome == FAILED:
        pytest.fail("\n".join([scenario.holds, *result.reasons, *result.exchange]), pytrace=False)
