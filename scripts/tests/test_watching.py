"""What watches stations from outside: `/metrics` as Prometheus reads it, the rules, alerts and the
dashboard of `examples/watch`. Without Prometheus (Debian's package `prometheus`) these tests are
skipped."""

import contextlib
import functools
import json
import re
import shutil
import signal
import socket
import subprocess
import urllib.parse
import urllib.request

from shared import page_day
from shared.checks import Skipped, expect
from shared.running import EXAMPLES, run
from shared.serving import wait_until
from tests.built import PROGRAM
from tests.suite import make_folder, test

HERE = make_folder()
WATCH = EXAMPLES / "watch"
start_page = functools.partial(page_day.start_page, PROGRAM)
POINTS = 5  # of the site


def need(program):
    if not shutil.which(program):
        raise Skipped(f"there is no {program}")


@test
def rules_are_well():
    """`promtool` finds nothing wrong with the rules and the configuration."""
    need("promtool")
    for words in (("check", "rules", "rules.yml"), ("check", "config", "prometheus.yml")):
        checked = run("promtool", *words, cwd=WATCH)
        expect(" ".join(words), (checked.status, checked.err), (0, ""))


@test
def each_alert_fires():
    """`promtool test rules`: each alert of the rules fires where it should, and each is in the
    test."""
    need("promtool")
    tested = run("promtool", "test", "rules", "rules_test.yml", cwd=WATCH)
    expect("promtool", (tested.status, tested.err), (0, ""))
    alerts = re.findall(r"- alert: (\w+)", (WATCH / "rules.yml").read_text())
    text = (WATCH / "rules_test.yml").read_text()
    fired = set(re.findall(r"- alertname: (\w+)\n +eval_time: \w+\n +exp_alerts:\n +- exp", text))
    expect("alerts that fire in the test", fired, set(alerts))
    waits = set(re.findall(r"alertname: (\w+), eval_time: \w+, exp_alerts: \[\]", text))
    expect("alerts that wait in the test", waits, set(alerts))


@contextlib.contextmanager
def start_prometheus(page_port):
    """Prometheus with the rules of the examples, which asks this page and looks at its rules each
    second. An alert fires once it has waited for two seconds, whatever its rule says."""
    folder = HERE / "prometheus"
    folder.mkdir()
    config = (WATCH / "prometheus.yml").read_text()
    config = config.replace("15s", "1s").replace("4002", str(page_port))
    config = config.replace("global:", "global:\n  evaluation_interval: 1s")
    (folder / "prometheus.yml").write_text(config)
    rules = re.sub(r"\bfor: \w+", "for: 2s", (WATCH / "rules.yml").read_text())
    (folder / "rules.yml").write_text(rules)
    with socket.socket() as free:
        free.bind(("127.0.0.1", 0))
        port = free.getsockname()[1]
    command = [
        "prometheus", f"--config.file={folder / 'prometheus.yml'}",
        f"--storage.tsdb.path={folder / 'data'}", f"--web.listen-address=127.0.0.1:{port}",
    ]  # fmt: skip
    with open(folder / "log", "wb") as log:
        process = subprocess.Popen(command, stdout=log, stderr=log)
    try:
        yield functools.partial(ask_prometheus, port)
    finally:
        process.terminate()
        process.wait(timeout=20)


def ask_prometheus(port, query):
    """The values that a query finds, by their labels; None while Prometheus isn't ready."""
    words = urllib.parse.urlencode({"query": query})
    try:
        with urllib.request.urlopen(f"http://127.0.0.1:{port}/api/v1/query?{words}") as answer:
            found = json.load(answer)["data"]["result"]
    except OSError:
        return None
    return {tuple(sorted(one["metric"].items())): float(one["value"][1]) for one in found}


@test
def prometheus_reads_a_station():
    """The real program asks a station, finds it up, reads its figures, and answers each query of
    the dashboard. An alert fires where its cause is there, and no longer than that: of dispensers
    that aren't connected, of a gap, and of a station that doesn't answer."""
    need("prometheus")
    dashboard = json.loads((WATCH / "dashboard.json").read_text())
    queries = [target["expr"] for panel in dashboard["panels"] for target in panel["targets"]]
    expect("queries", len(queries) >= 8, True)
    with start_page() as page, start_prometheus(page.port) as ask:
        wait_until("the station is up", lambda: 1.0 in (ask("up") or {}).values())
        site = page.site()
        points = sum((ask("witsomar_points") or {}).values())
        expect("its points", (points, len(site["points"])), (POINTS, POINTS))
        for query in queries:
            wait_until(query, lambda: ask(query))
        expect_alert(ask, "DispenserMissing")
        page.say("t1 Open 1", *(f"d{point} Online {point}" for point in range(1, POINTS + 1)))
        expect_alert(ask)
        page.say("d1 Lift 1 1@77")
        expect_alert(ask, "GapOpen")
        page.say("d1 Lift 1 1@0", "d1 HangUp 1 1@0")
        expect_alert(ask)
        page.day.process.send_signal(signal.SIGSTOP)
        try:
            expect_alert(ask, "StationDown")
        finally:
            page.day.process.send_signal(signal.SIGCONT)
        expect_alert(ask)


def expect_alert(ask, *wanted):
    """Waits until these alerts fire and no other one does, nor waits to."""

    def is_so():
        found = ask("ALERTS")
        return found is not None and list_alerts(found) == {(name, "firing") for name in wanted}

    wait_until(f"alerts {', '.join(wanted) or 'none'}", is_so)


def list_alerts(found):
    """Each alert's name and whether it is `pending` or `firing`."""
    labels = [dict(one) for one in found]
    return {(one["alertname"], one["alertstate"]) for one in labels}
