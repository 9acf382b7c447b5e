# shellcheck shell=bash disable=SC2034
# What the scripts in bash share; each begins by sourcing it.
set -u
script=${0##*/}
here=$(cd "$(dirname "${BASH_SOURCE[0]}")" && pwd)
top=$(dirname "$here")
passed=0
failed=0

# Ends with a line that says why nothing is tried, and status 0.
skip() { echo "$script: skipped, $*"; exit 0; }

# Ends with a line that says what is missing, and status 1.
stop() { echo "$script: $*"; exit 1; }

# Makes the folder room, which is removed when the script ends.
make_room() {
  room=$(mktemp -d) || exit 1
  trap 'rm -rf "$room"' EXIT
}

# Leaves in program, as a full path, the program $1, or without it $JM_TOOL, or the built one, which is
# proved and built first where that isn't done yet.
find_program() {
  program=${1:-${JM_TOOL:-}}
  if [ -z "$program" ]; then
    "$here/jm_tool" --version >/dev/null || stop "the program isn't built"
    program=$top/crates/jm_tool/out/jm_tool
  fi
  program=$(cd "$(dirname "$program")" && pwd)/$(basename "$program")
}

# Runs the program that was found.
jm_tool() { "$program" "$@"; }

# Puts the folder of the JDK beside `java`, or fails where there is none.
jdk_beside_java() {
  local java
  java=$(command -v java) && dirname "$(dirname "$(readlink -f "$java")")"
}

# Leaves in home the folder of a JDK, $1 or without it that of the JDK beside `java`, in image its
# lib/modules, and in jimage its command of that name.
find_jdk() {
  if [ $# -gt 0 ]; then home=$1; else home=$(jdk_beside_java) || skip "there is no java"; fi
  image=$home/lib/modules
  jimage=$home/bin/jimage
}

# Leaves in release the words with which a command takes the classes of a JDK, by a class of its own: none up
# to JDK 21, whose major version is 65, as a release of Java SE has its number plus 44. Bytes 6 and 7 of a
# class are its major version. Newer ones than JDK 25's aren't read.
find_release() {
  local major
  major=$(od -An -j 6 -N 2 -t u1 "$1" | awk '{ print $1 * 256 + $2 }')
  [ "$major" -le 69 ] || skip "the classes of $home are of version $major"
  release=()
  [ "$major" -le 65 ] || release=(--release $((major - 44)))
}

# Counts a test: $1 is the status that it ended with, and $2 the line to put where that isn't 0.
judge() {
  if [ "$1" = 0 ]; then passed=$((passed + 1)); else failed=$((failed + 1)); echo "$script: $2"; fi
}

# Puts how many tests passed and failed, and answers whether all passed.
finish() {
  echo "$script: $passed passed, $failed failed"
  [ "$failed" = 0 ]
}
