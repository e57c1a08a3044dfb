# shellcheck shell=bash disable=SC2154,SC2034
# Finds the kit, and keeps the built program in .build/ with a stamp of what it was built from.
# Read by ./panad and ./test, which set top, the repository's folder, beforehand.

built=$top/.build
log=$built/build.log
minutes_per_thousand_lines=1
# By settings of the caller's the kit would build another program.
unset RT_BACKEND RT_ALLOW_C RT_SECONDS

say() {
  printf 'panad: %s\n' "$*" >&2
}

# The kit's folder: that of the rt on PATH, else the usual place.
kit_folder() {
  local rt folder
  for rt in "$(command -v rt)" /opt/rattle/bin/rt; do
    [ -n "$rt" ] || continue
    folder=$(dirname -- "$(dirname -- "$(readlink -f -- "$rt")")")
    if [ -x "$folder/bin/rt" ] && [ -f "$folder/KIT-ID" ]; then
      printf '%s\n' "$folder"
      return
    fi
  done
  return 1
}

# One sum of all that the program is made from.
sources_sum() {
  (
    cd -- "$top" || exit
    find crates.txt crates/*/src crates/*/specs crates/*/proofs -type f -print0 2>/dev/null |
      LC_ALL=C sort -z | xargs -0 sha256sum | sha256sum
  )
}

# Whether the program is there and was built from these sources, and by this kit where one is at hand.
is_current() {
  local sum id kit
  [ -x "$built/panad" ] && { read -r sum && read -r id; } 2>/dev/null <"$built/stamp" || return 1
  [ "$sum" = "$(sources_sum)" ] || return 1
  kit=$(kit_folder) || return 0
  [ "$id" = "$(cat -- "$kit/KIT-ID")" ]
}

# Waits until no other build or gate works here. The lock is held until this shell ends or lets go.
take_lock() {
  mkdir -p -- "$built" 2>/dev/null && { exec 9>"$built/lock"; } 2>/dev/null || {
    say "cannot write in $built"
    return 1
  }
  flock -n 9 && return
  say 'another build is under way here; waiting for it'
  flock 9
}

release_lock() {
  exec 9>&-
}

# Keeps a program that the kit has just proved and linked, given the kit and the sum of its sources.
keep_program() {
  local kit=$1 sum=$2 made=$3
  if [ "$sum" != "$(sources_sum)" ]; then
    say 'the sources changed while they were being proved; start again'
    return 1
  fi
  rm -f -- "$built/stamp" &&
    cp -- "$made" "$built/panad.kept" &&
    mv -f -- "$built/panad.kept" "$built/panad" &&
    printf '%s\n%s\n' "$sum" "$(cat -- "$kit/KIT-ID")" >"$built/stamp.new" &&
    mv -f -- "$built/stamp.new" "$built/stamp"
}

announce_build() {
  local why=$1 lines
  lines=$(find "$top"/crates/*/src -name '*.rt' -type f -exec cat -- {} + | wc -l)
  say "$why: proving and building the program, in up to $((lines * minutes_per_thousand_lines / 1000 + 1)) min (log: $log)"
}

# Builds the program, or finds that another first use has done so meanwhile. Wants the lock.
build_under_lock() {
  local kit=$1 sum status why='first use'
  is_current && return
  [ -x "$built/panad" ] && why='the sources or the kit have changed'
  announce_build "$why"
  sum=$(sources_sum)
  python3 -B "$top/tools/prove.py" "$kit" "$built" </dev/null >&2
  status=$?
  if [ "$status" -eq 1 ]; then
    tail -n 15 -- "$log" >&2
    say "the build failed; its whole log is $log"
  fi
  [ "$status" -eq 0 ] || return "$status"
  keep_program "$kit" "$sum" "$built/panad.new" && rm -f -- "$built/panad.new" "$built/panad.o" && say 'built'
}

# Builds the program where it is not current. Nothing of this goes to standard output.
build_program() {
  local kit status
  kit=$(kit_folder) || {
    say 'the Rattle kit is not here (no rt on PATH, no /opt/rattle), so the program cannot be built'
    return 1
  }
  take_lock || return
  build_under_lock "$kit"
  status=$?
  release_lock
  return "$status"
}
