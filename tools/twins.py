"""Lists functions whose bodies are the same once names and numbers are left out. Run at the top of the repository."""
import collections
import glob
import re

FUNCTION = re.compile(r'^ *(pub )?(extern "C" )?fn (\w+).*?^ *\{\n(.*?)^ *\}\n', re.M | re.S)
alike = collections.defaultdict(list)
for path in sorted(glob.glob("crates/*/src/*.rt")):
    for function in FUNCTION.finditer(open(path).read()):
        body = re.sub(r"\b[a-zA-Z_]\w*\b", "x", re.sub(r"//.*", "", function.group(4)))
        body = re.sub(r"\s+", " ", re.sub(r"\d+", "0", body)).strip()
        if len(body) > 40:
            alike[body].append(path.split("/")[1] + "::" + function.group(3))
for names in alike.values():
    if len(names) > 1:
        print(", ".join(names))
