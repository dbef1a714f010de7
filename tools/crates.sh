# shellcheck shell=bash
# What crates.txt says of the crates: for ./build, ./test and tools/, which read this file at the
# repository's root. What prints lines prints one for each crate.

# The crates of a crates.txt, in its order.
crates_of() {
  sed -n 's/^\([a-z][a-z0-9_]*\).*/\1/p' "$1"
}

# The program and the crates of this repository that it stands on, lowest first.
crates_of_program() {
  awk -F: '
    /^[a-z]/ { uses[$1] = $2; order[++count] = $1 }
    END {
      wanted["tt_cli"] = 1
      for (i = count; i > 0; i--) {
        if (!(order[i] in wanted)) continue
        number = split(uses[order[i]], libraries, " ")
        for (k = 1; k <= number; k++) if (libraries[k] in uses) wanted[libraries[k]] = 1
      }
      for (i = 1; i <= count; i++) if (order[i] in wanted) print order[i]
    }' crates.txt
}

# The lines of a crates.txt on the program and the crates that it stands on. They stand beside the
# binary that was built by them.
lines_of_program() {
  local crate
  for crate in $(crates_of_program); do
    grep "^$crate:" "$1"
  done
}

# The crates of the program, those first that have the longest chain of others above them, in lines
# of code.
crates_by_chain() {
  local crate
  for crate in $(crates_of_program); do
    echo "$crate:$(find "crates/$crate/src" -name '*.rt' -exec cat {} + | wc -l)"
  done | awk -F: '
    NR == FNR { lines[$1] = $2; next }
    $1 in lines { uses[$1] = $2; order[++count] = $1 }
    END {
      for (i = count; i > 0; i--) {
        chain = above[order[i]] + lines[order[i]]
        print chain, order[i]
        number = split(uses[order[i]], libraries, " ")
        for (k = 1; k <= number; k++) if (above[libraries[k]] < chain) above[libraries[k]] = chain
      }
    }' - crates.txt | sort -rn | sed 's/.* //'
}

# How many tasks of the gate run side by side: one on each processor, with 5 GB of memory. `rt ci`
# reckons with far more for the largest crates, so these would wait for all others.
tasks_for_memory() {
  awk -v processors="$(nproc)" '
    /^MemTotal:/ { found = $2 / 5000000 }
    END { print int(found < processors ? found : processors) }' /proc/meminfo
}

# How many crates are proved side by side: two processors and 7 GB of memory for each.
lanes_for_crates() {
  awk -v processors="$(nproc)" '
    /^MemAvailable:/ { found = $2 / 7000000 }
    END { print int(found < processors / 2 ? found : processors / 2) }' /proc/meminfo
}
