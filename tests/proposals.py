"""The names of proposals, as ffi/tansyattic.h has them; .ci/reasons compares them with those elsewhere."""
import re

from harness import ROOT

NAMES = re.findall(r"#define tansyattic_feature_(\w+) ", (ROOT / "ffi/tansyattic.h").read_text().lower())
# Those that operators ask for, which scripts name; the others are of declarations alone.
OF_OPERATORS = re.findall(r"^ +const (\w+) = \d+;$", (ROOT / "crates/validate_types/src/features.rt").read_text().lower(), re.M)
# The one whose absence leaves allocations without exact types.
DESCRIPTORS = "custom_descriptors"
