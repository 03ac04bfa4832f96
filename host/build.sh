# What bin/naxxurbi, bin/sheet, bin/install-naxxurbi and host/run share: proving and building, once for each state of the sources.
# Sourced by bash.
#
# What is built is kept as target/launch/NAME-SUM-KIT: SUM is a sum over the sources' contents, KIT one over `rt version`. If the sources
# differ from what was built, there is no such file, and it is built anew. Nothing is written outside the repository, and nothing under
# crates/ but each crate's out/, where rt keeps its work.

# Whether standard input is closed, and standard output; asked first, since any file opened later could take its place.
if { : 3<&0; } 2>/dev/null; then closed=; else closed=yes; fi
if { : 3>&1; } 2>/dev/null; then deaf=; else deaf=yes; fi

top=$(dirname "$(dirname "$(readlink -f "${BASH_SOURCE[0]}")")")
kept=$top/target/launch
log=$kept/build.log
me=$(basename "$0")

# say WORDS..: a message for the user, on standard error
say() {
  echo "$me: $*" >&2
}

# fail WORDS..: a sentence and status 2
fail() {
  say "$*"
  exit 2
}

# need TOOL WHAT: ends with a sentence where TOOL is missing
need() {
  command -v "$1" >/dev/null 2>&1 || fail "$1 is needed and was not found: $2"
}

need_rt() {
  need rt "it is the Rattle toolchain, which proves and compiles the crates. Put its bin folder on PATH."
  [ "$HOSTTYPE" = x86_64 ] || fail "this machine's processor is $HOSTTYPE; the Rattle toolchain, and what it compiles, is for x86-64 alone."
}

need_cargo() {
  need cargo "it builds the Rust programs under host/. Install Rust (https://www.rust-lang.org) or put cargo on PATH."
}

# c_compiler: the name of the C compiler, CC or else cc or gcc; ends with a sentence where there is none
c_compiler() {
  local name
  for name in ${CC:-cc gcc}; do
    if command -v "$name" >/dev/null 2>&1; then
      echo "$name"
      return
    fi
    [ -z "${CC:-}" ] || break
  done
  fail "a C compiler is needed and was not found (looked for ${CC:-cc and gcc}). Install one, or name it in the variable CC."
}

# sum_of PATHS..: one sum over the names and contents of the files there, paths from the top; what a build leaves behind is passed over
sum_of() {
  (cd "$top" && find "$@" -name target -prune -o -type f -print0 2>/dev/null | LC_ALL=C sort -z | xargs -0 sha256sum | sha256sum | cut -c1-32)
}

# kit: a sum over the toolchain's one line of identity
kit() {
  rt version 2>&1 | sha256sum | cut -c1-16
}

# proof_sources: what a proof depends on
proof_sources() {
  echo crates.txt
  (cd "$top" && find crates -mindepth 2 -maxdepth 2 \( -name src -o -name specs -o -name proofs -o -name stdin -o -name stdout \))
}

# hold: waits until no other command builds here, keeps others waiting until `release` or the end, and begins the log anew
hold() {
  mkdir -p "$kept" 2>/dev/null && [ -w "$kept" ] || fail "cannot write to $kept, where what is built is kept"
  if command -v flock >/dev/null 2>&1; then
    exec 9>"$kept/lock"
    flock -n 9 || {
      say "another command is building here; waiting for it"
      flock 9
    }
  else
    hold_folder
  fi
  : >"$log"
}

# hold_folder: the same without flock: whoever makes the folder holds it; one left by a process that is gone is taken away
hold_folder() {
  local owner told=
  until mkdir "$kept/lock.folder" 2>/dev/null; do
    owner=$(cat "$kept/lock.folder/owner" 2>/dev/null)
    if [ -n "$owner" ] && ! kill -0 "$owner" 2>/dev/null; then
      rm -rf "$kept/lock.folder"
      continue
    fi
    [ -n "$told" ] || say "another command is building here; waiting for it"
    told=yes
    sleep 1
  done
  echo $$ >"$kept/lock.folder/owner"
  trap 'rm -rf "$kept/lock.folder"' EXIT
}

release() {
  exec 9>&-
  if [ "$(cat "$kept/lock.folder/owner" 2>/dev/null)" = $$ ]; then
    rm -rf "$kept/lock.folder"
    trap - EXIT
  fi
}

# crates_below NAMES..: these crates and all that they stand on, in the order in which rt proves them; the static libraries are left out
crates_below() {
  WANTED="$*" awk '
    function visit(n,    a, k, m) {
      if (n in seen) return
      seen[n]
      m = split(deps[n], a, " ")
      for (k = 1; k <= m; k++) if (a[k] in deps) visit(a[k])
      if (!(n in static)) print n
    }
    { sub(/#.*/, "") }
    /:/ { split($0, part, ":"); split(part[1], head, " "); deps[head[1]] = part[2]; if (head[2] == "staticlib") static[head[1]] }
    END { w = split(ENVIRON["WANTED"], want, " "); for (k = 1; k <= w; k++) visit(want[k]) }' "$top/crates.txt"
}

# told COMMAND..: runs it in the top folder with what it prints in the log, and calls `heard LINE` for each line and `waiting` for each
# second without one. Gives the command's status.
told() {
  local line part= status=2 from
  exec {from}< <(cd "$top" && "$@" </dev/null 2>&1; echo "ended with status $?")
  while :; do
    if IFS= read -r -t 1 -u "$from" line; then
      line=$part$line part=
      case $line in
      "ended with status "*) status=${line##* } && break ;;
      esac
      echo "$line" >>"$log"
      heard "$line"
    elif [ $? -gt 128 ]; then
      part=$part$line
      waiting
    else
      break
    fi
  done
  exec {from}<&-
  return "$status"
}

# doing WORDS..: tells what is being done, once when it begins and again after each half minute
doing() {
  if [ "$*" != "${done_now:-}" ]; then
    done_now=$* next_word=$((SECONDS + 30))
    say "$*"
  elif [ "$SECONDS" -ge "$next_word" ]; then
    next_word=$((SECONDS + 30))
    say "still $*"
  fi
}

# prove NAME WORDS WORD..: `rt WORD..` in the folder of the crate NAME, which proves the crate and all that it stands on, as far as they are
# not proved. Tells which crate of `crates` is being proved and how many there are, and WORDS where it is none of them.
prove() {
  local name=$1 words=$2 now=
  shift 2
  heard() {
    case $1 in
    "rt: chose --jobs "*" for "*) now=${1##* } ;;
    "rt: running "*) now= ;;
    esac
  }
  waiting() {
    local i
    for i in "${!crates[@]}"; do
      if [ "${crates[i]}" = "$now" ]; then
        doing "proving crate $((i + 1)) of ${#crates[@]}: $now"
        return
      fi
    done
    doing "$words"
  }
  told env -C "$top/crates/$name" rt "$@"
}

# step WORDS COMMAND..: a command of the build, told in these words
step() {
  local words=$1
  shift
  heard() { :; }
  waiting() { doing "$words"; }
  told "$@"
}

# not_built WORDS: ends with the log's last lines that tell what failed: those on what is proved, and the counts behind each crate, are left out
not_built() {
  sed -E '/^(statements|library|crate|logic|axioms|checked|only=|rt: chose)|: proved$/d' "$log" | tail -n 20 >&2
  fail "$1 (all that was said is in $log)"
}

# archives_sum: one sum over the proofs' sources, the toolchain and the archives as they are
archives_sum() {
  sum_of $(proof_sources) host/archives.txt
  kit
  sed 's,.*,target/staticlib/lib&.a,' "$top/host/archives.txt" | (cd "$top" && xargs sha256sum 2>/dev/null)
}

# archives: brings target/staticlib up to date, one archive for each line of host/archives.txt: that of NAME is of the static library NAME_c.
# To be called while holding. `rt lib` checks its crate anew each time, so it is left out where the sources and the archives are those of the
# last time. One archive after the other: two runs of rt in one checkout would wait for one another.
archives() {
  local names crates before i
  mapfile -t names <"$top/host/archives.txt"
  [ "$(cat "$kept/archives" 2>/dev/null)" != "$(archives_sum)" ] || return 0
  need_rt
  rm -f "$kept/archives"
  mkdir -p "$top/target/staticlib" || fail "cannot write to $top/target/staticlib, where the archives are kept"
  before=$(sum_of $(proof_sources))
  mapfile -t crates < <(crates_below "${names[@]/%/_c}")
  for i in "${!names[@]}"; do
    archive "${names[i]}" "proving and compiling archive $((i + 1)) of ${#names[@]}: ${names[i]}" ||
      not_built "the archive of ${names[i]} was not built"
  done
  [ "$before" = "$(sum_of $(proof_sources))" ] || fail "the sources changed while they were proved; run this again"
  archives_sum >"$kept/archives"
}

# archive NAME WORDS: writes the archive NAME, told in these words
archive() {
  prove "$1_c" "$2" lib && cp "$top/crates/$1_c/out/lib$1_c.a" "$top/target/staticlib/lib$1.a"
}

# put FILE PLACE: copies what was built to its place in one move, and takes away those of earlier sources
put() {
  local name
  name=$(basename "$2")
  cp "$1" "$kept/.$name.$$" && chmod +x "$kept/.$name.$$" || fail "cannot write to $kept"
  find "$kept" -maxdepth 1 -name "${name%%-*}-*" -delete
  mv "$kept/.$name.$$" "$2"
}

# built NAME PATHS..: sets `program` to the place of NAME as built from the files at PATHS, and `sources_now` to their sum; is it there?
built() {
  local name=$1
  shift
  sources_now=$(sum_of "$@")
  program=$(echo "$kept/$name-$sources_now-"*)
  ! command -v rt >/dev/null 2>&1 || program=$kept/$name-$sources_now-$(kit)
  [ -x "$program" ]
}

# fresh NAME BUILD PATHS..: sets `program` to NAME as built from the files at PATHS, calling BUILD, which sets `made`, where it is not
# there. Where there is a function `before_building`, it is called first then, and may end the command.
fresh() {
  local name=$1 build=$2
  shift 2
  ! built "$name" "$@" || return 0
  ! declare -F before_building >/dev/null || before_building
  need_rt
  hold
  if [ ! -x "$program" ]; then
    say "building $name from the sources as they are now; the first time this takes some minutes"
    "$build"
    [ "$sources_now" = "$(sum_of "$@")" ] || fail "the sources changed while $name was built; run this again"
    put "$made" "$program"
  fi
  release
}

# build_sheet: the command for people, over the archives
build_sheet() {
  local linker
  need_cargo
  linker=$(c_compiler) || exit 2
  archives
  made=$top/host/sheet/target/release/sheet
  export CARGO_TARGET_{X86_64,AARCH64}_UNKNOWN_LINUX_GNU_LINKER="$linker"
  step "compiling host/sheet" \
    cargo build --release --offline --quiet --manifest-path host/sheet/Cargo.toml --target-dir host/sheet/target ||
    not_built "host/sheet was not compiled"
}

# fresh_sheet: sets `program` to the command for people as built from the sources as they are
fresh_sheet() {
  fresh sheet build_sheet $(proof_sources) host/archives.txt host/{sheet,plain,calls}/{src,Cargo.toml,Cargo.lock,build.rs} host/sheet/help include
}

# heard_by_nobody: ends with a sentence where standard output is closed
heard_by_nobody() {
  [ -z "$deaf" ] || fail "standard output is closed; there is nowhere to tell the result"
}

# version: the version, the commit if it is known, the toolchain if there is one
version() {
  local number commit kit_line
  number=$(sed -n 's/^## \([0-9][0-9.]*\).*/\1/p' "$top/CHANGELOG.md" 2>/dev/null | sed 1q)
  commit=$(git -C "$top" rev-parse --short=12 HEAD 2>/dev/null)
  kit_line=$(rt version 2>/dev/null)
  echo "$me ${number:-of no number}, commit ${commit:-not known}, ${kit_line:-toolchain not known}"
}
