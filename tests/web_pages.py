"""Checks of the metrics and the page, which tests/firmctl.py runs."""

from __future__ import annotations

import re
import sys
from base64 import b64encode
from hashlib import sha256

from front_kit import front, metrics_of, missing_of, samples_of
from harness.checks import Check, print_skipped, require
from harness.program import ROOT


def metrics_are_those_of_the_books() -> None:
    with front() as started:
        samples = samples_of(started.state)
        wanted = {
            ("firm_lines_total", ""): 15,
            ("firm_rounds_total", "tenant=alpha"): 2,
            ("firm_tasks", "state=running,tenant=alpha"): 3,
            ("firm_tasks", "state=waiting,tenant=alpha"): 1,
            ("firm_free_slots", "tenant=alpha"): 0,
            ("firm_slots", "tenant=alpha"): 3,
            ("firm_round_cost", "tenant=alpha"): 5,
            ("firm_longest_wait_rounds", "tenant=alpha"): 1,
            ("firm_commands_total", "tenant=beta"): 2,
            ("firm_journal_bytes", ""): 2500,
            ("firm_refusals_total", "reason=no-such-job,tenant=alpha"): 1,
            ("firm_refusals_total", "reason=unknown-tenant,tenant="): 1,
            ("firm_refusals_total", "reason=tenant-exists,tenant="): 1,
            ("firm_round_seconds_count", ""): 0,
        }
        wrong = {key: samples.get(key) for key, value in wanted.items() if samples.get(key) != value}
        require(not wrong and ("firm_round_cost", "tenant=beta") not in samples, wrong)
        for seconds in (0.0001, 0.0003, 100.0):
            started.say(b"alpha round", seconds=seconds)
        started.say(b"+ retire beta", b"alpha \xff", seconds=1)
        samples = samples_of(started.state)
        buckets = [
            samples["firm_round_seconds_bucket", f"le={most}"]
            for most in ("0.0001", "0.0002", "0.0005", "10.0", "+Inf")
        ]
        require(buckets == [1, 1, 2, 2, 3] and samples["firm_round_seconds_count", ""] == 3, buckets)
        require(abs(samples["firm_round_seconds_sum", ""] - 100.0004) < 1e-6, samples["firm_round_seconds_sum", ""])
        require(not [key for key in samples if "tenant=beta" in key[1]], "series of a tenant that is retired")
        names = set(re.findall("^# TYPE (\\S+)", metrics_of(started.state), re.M))
        page = (ROOT / "docs" / "OPERATING.md").read_text()
        section = page.partition("# Metrics and the page\n")[2].partition("\n#")[0]
        named = set(re.findall("`(firm_[a-z_]+)`", section))
        require(named and named <= names, f"docs/OPERATING.md names {named - names}")


def page_has_no_external_part() -> None:
    """The policy allows only the page's own style and script, and the page names no other place."""
    from firm.api.handlers import PAGE, policy_of

    text = PAGE.read_text("utf-8")
    policy = policy_of(text)
    for tag in ("style", "script"):
        (part,) = re.findall(rf"<{tag}>(.*?)</{tag}>", text, re.S)
        require(f"{tag}-src 'sha256-{b64encode(sha256(part.encode()).digest()).decode()}';" in policy, policy)
    require("default-src 'none'" in policy and "unsafe" not in policy and "*" not in policy, policy)
    places = set(re.findall(r"(?:https?:)?//[a-z][a-z0-9.]*", re.sub(r"^\s*//.*|\s//\s.*", "", text, flags=re.M)))
    require(not places, places)
    forbidden = re.findall(
        r"innerHTML|outerHTML|insertAdjacentHTML|document\.write|eval\(|\bon[a-z]+=|\ssrc=|<link|@import|url\(", text
    )
    require(not forbidden, forbidden)


def web_checks() -> dict[str, Check]:
    """Return the checks of the metrics and the page, as far as their packages are installed."""
    if missing := missing_of(["aiohttp", "prometheus_client"]):
        packages = "apt-get install python3-aiohttp python3-prometheus-client"
        print_skipped("metrics and page", f"{sys.executable} has no {' and no '.join(missing)} ({packages})")
        return {}
    return {"metrics": metrics_are_those_of_the_books, "page without external parts": page_has_no_external_part}
