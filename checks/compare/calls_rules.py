"""Calls on rules of an encoding, on encoding again, and on the containers that are open at a byte."""

import reencode_form
import rules_form
import trace_form


def traced(row):
    return trace_form.called(row.call, row.bytes(), map(int, row.argument.split()))


CALLS = {
    "violation": lambda row: rules_form.violation(row.bytes(), rules_form.rules_of(row.argument)),
    "violation_in": lambda row: rules_form.violation_in(row.bytes(), rules_form.rules_of(row.argument)),
    "violation_of": lambda row: reencode_form.violation_of(row.bytes(), rules_form.rules_of(row.argument)),
    "violations": lambda row: reencode_form.violations(row.bytes()),
    "reencode": lambda row: reencode_form.reencode(row.bytes(), rules_form.rules_of(row.argument)),
    "paths": lambda row: trace_form.paths(row.bytes()),
    "cuts": lambda row: trace_form.cuts(row.bytes()),
    "part_at": traced,
    "innermost": traced,
    "end_at": traced,
    "head_at": traced,
}
