"""What the scripts of docs/tables share: where the repository is, and the faults that they find."""

from pathlib import Path

ROOT = Path(__file__).resolve().parent.parent
CRATES = ROOT / "crates"

faults = []
