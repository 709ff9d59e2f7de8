#!/bin/sh
# Proves and builds the programs, by each compiler: crates/NAME/out/NAME is LLVM's, and out/NAME.by-rattle that of Rattle's own. A
# further program is one more word of the list.
cd "$(dirname "$0")/../crates" || exit 1
for name in firuvaik presigned operation awsign tool_uses; do
  (cd "$name" && rt run --backend rattle -- --version < /dev/null && cp "out/$name" "out/$name.by-rattle" && rt run -- --version < /dev/null) || exit 1
done
