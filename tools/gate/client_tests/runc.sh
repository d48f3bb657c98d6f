# What runc does for a container that has a class of its own, and what it leaves. The container sees the programs of this machine.
bundle=$(mktemp -d)
trap 'rm -rf "$bundle"' EXIT
mkdir "$bundle/rootfs" "$bundle/state"
(cd "$bundle" && runc spec) && python3 - "$bundle/config.json" <<'END'
import json
import sys

with open(sys.argv[1], encoding="utf-8") as file:
    config = json.load(file)
config["process"] |= {"terminal": False, "args": ["/bin/sh", "-c", "echo in the container"]}
places = [f"/{name}" for name in ("bin", "lib", "lib64", "usr")]
config["mounts"] += [{"destination": place, "type": "none", "source": place, "options": ["rbind", "ro"]} for place in places]
config["linux"]["intelRdt"] = {"closID": "web", "l3CacheSchema": "L3:0=f;1=f0"}
with open(sys.argv[1], "w", encoding="utf-8") as file:
    json.dump(config, file)
END

run() {
    echo "$ $1"
    eval "$1" 2>&1
}
run 'runc --root "$bundle/state" run --bundle "$bundle" c1'
run 'cat web/schemata web/tasks'
run 'cat info/last_cmd_status'
