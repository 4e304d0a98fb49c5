"""The calls of the vectors that the second implementation has.

Each takes a row, and returns the text that the row has to give; or None if it cannot tell.
"""

import calls_bytes
import calls_edn
import calls_inputs
import calls_notes
import calls_places
import calls_rules
import cddl_rows

SUBJECTS = [calls_bytes, calls_edn, calls_inputs, calls_notes, calls_places, calls_rules, cddl_rows]
CALLS = {name: call for subject in SUBJECTS for name, call in subject.CALLS.items()}

# The calls that it does not have, so that a call that nobody knows is found: tables of names, what a screen shows, and
# messages, whose words are the library's own.
WITHOUT = {
    "encoded", "encoded_by_cddl", "excerpt_of_bytes", "excerpt_of_text", "first_violation", "looks_like", "lost_words",
    "meanings", "meanings_by", "meanings_by_cddl", "name_before", "names", "names_at", "names_by", "names_by_cddl",
    "not_encoded", "not_json", "partial_edn", "position_of", "push_colored", "push_dump", "push_elided",
    "push_partial_dump", "push_without_widths", "with_file",
}
