#!/bin/bash
# pick.sh COMMIT..: cherry-pick each, conflicts merged by words
for c in "$@"; do
  if ! git cherry-pick -n $c >/dev/null 2>&1; then
    for f in $(git diff --name-only --diff-filter=U); do
      git show $c^:$f > /tmp/pb 2>/dev/null || : > /tmp/pb; git show HEAD:$f > /tmp/po 2>/dev/null || : > /tmp/po; git show $c:$f > /tmp/pt
      python3 /work/lmerge.py /tmp/pb /tmp/po /tmp/pt $f | cut -c1-260
      [ $f = docs/CRATES.md ] && sed -i -E 's/<<<OURS ([0-9]+)\|\|\|[0-9]+===[0-9]+>>>/\1/g' $f
      git add $f
    done
  fi
  if grep -rn "<<<OURS\|^<<<<<<< " docs README.md crates.txt include cli python tests/src crates --include=* -l 2>/dev/null | head -3 | grep .; then echo "UNRESOLVED at $c"; exit 1; fi
  git commit -q --allow-empty -C $c
  echo "$(git log --oneline -1)"
done
