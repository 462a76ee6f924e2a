"""What a machine needs for its tries, in one archive: `Bundle(campaign)`. It has the program's file, the files that the plan
reads, and the Python of this command. The sum of all names the folder in which a machine keeps it."""

import hashlib
import io
import json
from pathlib import Path
import tarfile

from lib import engine
from lib.engine import NoEngine

HUNT = Path(__file__).resolve().parent.parent
READ = ("image", "log", "strata")  # keys of a sphere that name files that are read, in a replay all of them


class Bundle:
    def __init__(self, campaign):
        self.files = {"delorean": Path(campaign.program[-1]).read_bytes()}
        try:
            self.files["engine"] = Path(engine.built()).read_bytes()
        except NoEngine:
            pass  # hangs aren't told from live runs, here or there
        for folder in "lib", "campaign":
            for file in sorted((HUNT / folder).glob("*.py")):
                self.files["%s/%s" % (folder, file.name)] = file.read_bytes()
        self.files["campaign.json"] = json.dumps(self.described(campaign)).encode()
        self.archive = archive_of(self.files)
        self.sum = hashlib.sha256(self.archive).hexdigest()[:32]

    def described(self, campaign):
        """The campaign, with the names that its files have in the bundle."""
        values = dict(campaign.plan.values)
        values |= {key: self.add(values[key]) for key in ("input", "script") if key in values}
        values["sphere"] = [self.sphere(sphere) for sphere in values["sphere"]]
        return {"values": values, "number": campaign.plan.number, "sum": campaign.plan.sum, "settings": campaign.settings,
                "bad": campaign.bad, "most_events": campaign.most_events}

    def sphere(self, sphere):
        read = READ if sphere.get("role") == "replay" else ("image",)
        return sphere | {key: self.add(sphere[key]) for key in read if key in sphere}

    def add(self, name):
        """Adds a file; its name in the bundle."""
        data = Path(name).read_bytes()
        here = "file-" + hashlib.sha256(data).hexdigest()[:16]
        self.files[here] = data
        return here


def archive_of(files):
    """The bytes of an archive that are the same for the same files."""
    out = io.BytesIO()
    with tarfile.open(fileobj=out, mode="w") as archive:
        for name, data in sorted(files.items()):
            entry = tarfile.TarInfo(name)
            entry.size, entry.mode = len(data), 0o755
            archive.addfile(entry, io.BytesIO(data))
    return out.getvalue()
