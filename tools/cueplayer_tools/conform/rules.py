"""All rules of a receiver, in the order in which they are tried and told."""

from cueplayer_tools.conform import rules_fields, rules_sources, rules_stream, rules_universes
from cueplayer_tools.conform.script import Rule

RULES: tuple[Rule, ...] = (
    *rules_stream.RULES,
    *rules_sources.RULES,
    *rules_universes.RULES,
    *rules_fields.RULES,
)
