"""What --version prints, by the one constant that says it; the repository's checks hold that to the kit."""
import json
import re
from pathlib import Path

SOURCE = Path(__file__).resolve().parents[4] / "crates/pana_arguments/src/version.rt"
version = re.search(r'VERSION: &str = "(.*)";', SOURCE.read_text(encoding="utf-8"))[1]

for word in ("--version", "-V"):
    print(json.dumps({"args": [word], "output": f"panad {version}\n"}))
refused = "error: unexpected argument '--version' found\n\nUsage: panad run [OPTIONS]\n\nFor more information, try '--help'.\n"
print(json.dumps({"args": ["run", "--version"], "error": refused, "status": 2}))
