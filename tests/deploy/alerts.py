#!/usr/bin/env python3
"""The rules of deploy/alerts.yaml, and deploy/dashboard.json: tests/deploy/alerts.py. Each sample that they name is in the page of a live server, and in the table of
docs/OPERATING.md. promtool reads them, and says of made series which alerts they raise.
"""
import json
import re
import subprocess
import tempfile
import time
from pathlib import Path

from deployment import TOP
from administration import Administered
from lib.running_server import Report, want

RULES = TOP / "deploy/alerts.yaml"
SAMPLE = re.compile(r"(?:up|path_server_\w+)(?:\{[^}]*\})?")
RULE = re.compile(r"alert: (\w+), expr: '([^']+)', (?:for: \w+, )?labels: \{severity: (critical|warning|info)\}, annotations: \{summary: '([^']+)'\}")
# the series of a server at each limit, and the alerts
SERIES = {
    'up{job="path_server"}': ("0x20", "PathServerGone"),
    "path_server_ready": ("0x20", "PathServerEmpty"),
    "path_server_connections_open": ("9001x20", "PathServerConnections"),
    "path_server_connections_limit": ("10000x20", None),
    "path_server_accept_refused": ("1x20", "PathServerDescriptors"),
    "path_server_connections_waiting": ("1x20", "PathServerWaiting"),
    "path_server_buffered_bytes": ("91x20", "PathServerBuffers"),
    "path_server_buffered_limit_bytes": ("100x20", None),
    'path_server_requests_total{command="put",status="NoMemory"}': ("0+1x20", "PathServerNoMemory"),
    'path_server_requests_total{command="none",status="FrameFault"}': ("0+1x20", "PathServerStrangers"),
    'path_server_requests_total{command="query",status="Costly"}': ("0+1x20", "PathServerCostly"),
    'path_server_requests_total{command="put",status="TooLong"}': ("0+1x20", "PathServerTooLong"),
    "path_server_dropped_lines_total": ("0+1x20", "PathServerDroppedLines"),
    "path_server_lost_lines_total": ("0+1x20", "PathServerLostLines"),
    'path_server_tenant_refused_bytes_total{tenant="acme"}': ("0+10000000x20", "PathServerRefusedBytes"),
    'path_server_tenant_collections{tenant="acme"}': ("15x20", "PathServerCollections"),
    'path_server_tenant_documents{tenant="acme"}': ("901x20", "PathServerDocuments"),
    'path_server_tenant_text_bytes{tenant="acme"}': ("15000001x20", "PathServerTexts"),
    "path_server_slow_queries_total": ("0+3x20", "PathServerSlowQueries"),
    'path_server_request_seconds_bucket{le="0.1"}': ("0+98x20", "PathServerSlow"),
    'path_server_request_seconds_bucket{le="0.25"}': ("0+100x20", None),
    'path_server_request_seconds_bucket{le="+Inf"}': ("0+100x20", None),
    'path_server_certificate_end_seconds{file="server.pem"}': ("2592800x20", "PathServerCertificate"),
}
CALM = {"up": "1x20", "path_server_ready": "1x20", "path_server_connections_open": "9000x20", "path_server_accept_refused": "0x20", "path_server_connections_waiting": "0x20",
        "path_server_buffered_bytes": "90x20", "path_server_requests_total": "7x20", "path_server_dropped_lines_total": "7x20", "path_server_lost_lines_total": "7x20", "path_server_tenant_refused_bytes_total": "0+1000000x20", "path_server_slow_queries_total": "0+1x20",
        "path_server_tenant_collections": "14x20", "path_server_tenant_documents": "900x20", "path_server_tenant_text_bytes": "15000000x20",
        "path_server_certificate_end_seconds": "2592900x20"}


def named(report):
    text = RULES.read_text(encoding="utf-8")
    rules = {name: (rule, severity, summary) for name, rule, severity, summary in RULE.findall(text)}
    report.case("each line of a rule is read", "", text.count("alert:"), len(rules))
    with Administered() as server:
        page = server.ask("GET", "/metrics")[1].decode()
        server.finish(report)
    page += ends_of_certificates(report)
    samples = {line.rpartition(" ")[0].partition("{")[0] for line in page.splitlines()}
    told = (TOP / "docs/OPERATING.md").read_text(encoding="utf-8")
    for alert, (rule, _, _) in rules.items():
        names = {it.partition("{")[0] for it in SAMPLE.findall(rule)} - {"up"}
        report.case(f"{alert}: names of samples", rule, names, names & samples)
        for status in re.findall(r"\w+", "".join(re.findall(r'status=~?"([^"]+)"', rule))):
            report.case(f"{alert}: a status", status, True, f'status="{status}"' in page)
        first = SAMPLE.search(rule)[0].partition("{")[0].removesuffix("_bucket")
        report.case(f"{alert}: in docs/OPERATING.md", first, True, f"`{first}" in told)
    shown = json.loads((TOP / "deploy/dashboard.json").read_text(encoding="utf-8"))
    for panel in shown["panels"]:
        names = {it.partition("{")[0] for target in panel["targets"] for it in SAMPLE.findall(target["expr"])}
        report.case(f"{panel['title']}: names of samples", "", (True, names), (bool(names), names & samples))
    return rules


def ends_of_certificates(report):
    """What deploy/certificates.sh says of the ends of made certificates, a year and ten years from now."""
    with tempfile.TemporaryDirectory() as at:
        subprocess.run([TOP / "deploy/certificates.sh", at, "127.0.0.1", "alice"], check=True)
        text = subprocess.run([TOP / "deploy/certificates.sh", "--ends", at], check=True, stdout=subprocess.PIPE, encoding="utf-8").stdout
    days = {file: round((int(end) - time.time()) / 86_400) for file, end in re.findall(r'path_server_certificate_end_seconds\{file="([\w.]+)"\} (\d+)', text)}
    report.case("the days of certificates", "", {"alice.crt": 365, "ca.crt": 3650, "server.pem": 365}, days)
    return text


def tested(report, rules):
    """What promtool says of series at each limit and of a server without trouble."""
    def tests(series, alerts):
        lines = ["  - interval: 1m", "    input_series:"]
        lines += [f"      - {{series: '{name}', values: '{values}'}}" for name, values in series.items()]
        lines += ["    alert_rule_test:"]
        return lines + [line for alert in rules for line in [f"      - eval_time: 15m", f"        alertname: {alert}", f"        exp_alerts: {alerts(alert)}"]]

    labels = {"PathServerGone": "job: path_server, ", "PathServerCertificate": 'file: server.pem, ',
              **{it: 'tenant: acme, ' for it in ("PathServerCollections", "PathServerDocuments", "PathServerTexts", "PathServerRefusedBytes")}}
    at_limit = {name: values for name, (values, _) in SERIES.items()}
    calm = {name: CALM.get(name.partition("{")[0], values) for name, values in at_limit.items()}
    calm['path_server_request_seconds_bucket{le="0.1"}'] = "0+100x20"
    with tempfile.TemporaryDirectory() as at:
        file = Path(at) / "tests.yaml"
        lines = [f"rule_files: ['{RULES}']", "evaluation_interval: 1m", "tests:"]
        lines += tests(at_limit, lambda alert: f"[{{exp_labels: {{{labels.get(alert, '')}severity: {rules[alert][1]}}}, exp_annotations: {{summary: '{rules[alert][2]}'}}}}]") + tests(calm, lambda alert: "[]")
        file.write_text("\n".join(lines) + "\n", encoding="utf-8")
        for words in (["check", "rules", RULES], ["test", "rules", file]):
            ran = subprocess.run(["promtool", *words], capture_output=True, encoding="utf-8")
            report.case(f"promtool {words[0]} rules", "", 0, ran.returncode if ran.returncode == 0 else (ran.returncode, ran.stdout + ran.stderr))
    report.case("each alert has a series", "", sorted(rules), sorted(filter(None, (alert for _, alert in SERIES.values()))))


def main():
    want("promtool", "openssl")
    report = Report()
    tested(report, named(report))
    report.close("alerts")


if __name__ == "__main__":
    main()
