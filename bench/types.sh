#!/bin/bash
# What the types alone forbid. A list that is lent reaches a driver as a borrow, so a hold filter that keeps
# it doesn't compile: in a copy of the sources it is told to, and the compiler has to say why it can't.
#
#     bash bench/types.sh
set -u
top=$(cd "$(dirname "${BASH_SOURCE[0]}")/.." && pwd)
room=$(mktemp -d) || exit 2
trap 'rm -rf "$room"' EXIT
mkdir "$room/copy" && cp -r "$top/crates.txt" "$top/HANDLES" "$room/copy/" || exit 2
(cd "$top" && find crates -path '*/out' -prune -o -type f -print0 | xargs -0 cp --parents -t "$room/copy") || exit 2
driver=$room/copy/crates/frame_filters/src/hold.rt
sed -i 's/self\.served\.receive_lent += 1;/self.served.receive_lent += 1;\n        self.kept.push(_list);/' "$driver"
printf '\n#[cfg(test)]\nmod tests {\n    #[test]\n    fn nothing() {}\n}\n' >>"$driver"
said=$(cd "$room/copy/crates/frame_filters" && rt try --test 2>&1)
wanted='error[mismatched-types]: expected `BufferList`, found `&BufferList`'
if [[ $said == *"$wanted"* ]]; then
    echo "passed: a lent list can't be kept ($wanted)"
else
    echo "FAILED: a lent list can be kept, or something else is amiss:"
    echo "$said" | tail -5
    exit 1
fi
