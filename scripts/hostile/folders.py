"""The files of a folder of this machine, and a small star to be put into one."""
import os

TABLES = {
    "catalog.txt": b"fact n\ncol v int\ncol w text null\ndim d key k\ncol k int\ncol r text null\n",
    "n.csv": b"v,w\n1,x\n2,\\N\n4,\"y,z\"\n",
    "d.csv": b"k,r\n1,north\n2,\\N\n",
}
QUERY = "SELECT r, COUNT(*), SUM(v) FROM n JOIN d ON v = k GROUP BY r ORDER BY r"


def put(folder, files):
    """Writes files, by their paths below the folder."""
    for name, data in files.items():
        os.makedirs(os.path.dirname(f"{folder}/{name}"), exist_ok=True)
        with open(f"{folder}/{name}", "wb") as file:
            file.write(data)


def held(folder):
    """The bytes of all files below the folder, by their paths."""
    found = {}
    for root, _, names in os.walk(folder):
        for name in names:
            with open(f"{root}/{name}", "rb") as file:
                found[os.path.relpath(f"{root}/{name}", folder)] = file.read()
    return found
