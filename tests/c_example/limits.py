"""The constants of include/grib1.h and of the Rust crate are those of crates/rules/src/bounds.rt, which the codec is proved with, their sections
and kinds of grids have the same numbers, and their versions are one."""
import os
import re
import sys

root = sys.argv[1]
wrong = []


def text(*parts):
    with open(os.path.join(root, *parts), encoding="utf-8") as f:
        return f.read()


def numbers(source, pattern):
    return {m[1]: int(m[2]) for m in re.finditer(pattern, source, re.M)}


bounds = numbers(text("crates", "rules", "src", "bounds.rt"), r"^pub const (\w+): \w+ = (-?\d+);$")
header = text("include", "grib1.h")
c = numbers(header, r"^#define GRIB1_(\w+) \(?(-?\d+)\)?(?:\s|$)")
rust = numbers(text("rust", "src", "limits.rs"), r"^pub const (\w+): \w+ = (-?\d+);$")
scan = numbers(text("rust", "src", "scan.rs"), r"^pub const (\w+): \w+ = (\d+);$")


def even(octets):
    return octets + octets % 2


# what no caller meets: the bounds of the listing program, and of sections that are whole in what is lent
INSIDE = {"LISTED_MOST", "LISTED_ROOM", "GDS_LEAST", "OCTANT_ROWS", "OCTANT_POINTS", "BMS_LEAST", "BMS_HEAD", "BDS_LEAST", "BDS_HEAD"}
lengths = {name: value for name, value in bounds.items() if name.endswith("_LENGTH")}
limits = {name: value for name, value in bounds.items() if name not in INSIDE and name not in lengths}

# every section of a rectangle at its most: indicator, PDS, GDS of the kind whose GDS is longest, a bitmap that is carried, data, end; a
# thinned octant has a longer GDS and far fewer points (crates/theorems/specs/Returns.antt, WrittenFits)
limits["WRITTEN_MOST"] = (
    8 + bounds["PDS_MOST"] + max(value for name, value in lengths.items() if name != "THINNED_LENGTH") + even(bounds["BMS_HEAD"] + bounds["POINTS_MOST"] // 8)
    + even(bounds["BDS_HEAD"] + bounds["POINTS_MOST"] * bounds["BITS_MOST"] // 8) + 4
)
limits["MISSING"] = 2**16 - 1
# an index has an entry for each group of so many points
limits["GROUP"] = limits.pop("GROUP_LONG")
limits["INDEX_MOST"] = -(-bounds["POINTS_MOST"] // bounds["GROUP_LONG"])
limits.setdefault("DISTANCE_MOST", 2**24 - 1)  # three octets without a sign
for where, found in [("include/grib1.h", c), ("rust/src/limits.rs", rust)]:
    own = {name: value for name, value in found.items() if not name.startswith(("VERSION", "SCAN", "STACK"))}
    for name in sorted(limits.keys() | own.keys()):
        if limits.get(name) != own.get(name):
            wrong.append(f"{where}: {name} is {own.get(name)}, and by the rules {limits.get(name)}")

# "Scanning bit 1 set: columns run west. Bit 2 set: rows run north. Bit 3 set: points of one column are consecutive"
bits = {"WEST": 128, "NORTH": 64, "BY_COLUMN": 32}
for where, found in [("include/grib1.h", {n[5:]: v for n, v in c.items() if n.startswith("SCAN_")}), ("rust/src/scan.rs", scan)]:
    if found != bits:
        wrong.append(f"{where}: the scanning bits are {found}, and by the rules {bits}")

# "Asking for section 0 to 5"; the walk over their lengths (crates/rules/specs/Walk.antt) tells 1 to 5
sections = {"INDICATOR": 0, "PDS": 1, "GDS": 2, "BMS": 3, "BDS": 4, "END": 5}
for where, found in [
    ("include/grib1.h", numbers(header, r"^    GRIB1_SECTION_(\w+) = (\d+),?$")),
    ("rust/src/section.rs", {n.upper(): v for n, v in numbers(text("rust", "src", "section.rs"), r"^    (\w+) = (\d+),$").items()}),
]:
    if found != sections:
        wrong.append(f"{where}: the sections are {found}, and by the rules {sections}")

# document 003's Table 6: "DATA REPRESENTATION TYPE (GDS OCTET 6)"
kinds = {"LATLON": 0, "MERCATOR": 1, "LAMBERT": 3, "GAUSSIAN": 4, "POLAR": 5}
for where, found in [
    ("include/grib1.h", numbers(re.search(r"^enum grib1_grid_kind \{$.*?^\};$", header, re.M | re.S)[0], r"^    GRIB1_(\w+) = (\d+)\b")),
    ("rust/src/records.rs", numbers(text("rust", "src", "records.rs"), r"^pub const (\w+): u8 = (\d+);$")),
]:
    if found != kinds:
        wrong.append(f"{where}: the kinds of grids are {found}, and by the rules {kinds}")

version = ".".join(str(c[f"VERSION_{part}"]) for part in ("MAJOR", "MINOR", "PATCH"))
for where, found in [
    ("include/grib1.h, GRIB1_VERSION", re.search(r'^#define GRIB1_VERSION "(.*)"$', header, re.M)[1]),
    ("rust/Cargo.toml", re.search(r'^version = "(.*)"$', text("rust", "Cargo.toml"), re.M)[1]),
    ("rust/Cargo.lock", re.search(r'^name = "grib1"\nversion = "(.*)"$', text("rust", "Cargo.lock"), re.M)[1]),
]:
    if found != version:
        wrong.append(f"{where}: version {found}, not {version}")

if wrong:
    print("\n".join("limits: " + w for w in wrong))
    sys.exit(1)
print(
    f"limits: {len(limits)} bounds, {len(bits)} scanning bits, {len(sections)} sections and {len(kinds)} kinds of grids, in C and in Rust as in "
    f"the rules; version {version}"
)
