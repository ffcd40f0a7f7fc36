#!/bin/bash
# pipeline.sh: reads of a simulator (wgsim) from a simulated genome of 5 million bases, mapped by bwa mem and by
# minimap2, encoded, validated and decoded: the letters of every primary record are those that the simulator wrote, and
# its name is that of the record. It prints how the reads are stored, and bits a base without names and with them.
# pipeline.sh bench: speed and memory of the tool on 2,000,000 reads, as ratios in one run, beside samtools. On a machine
# that others use too, BENCH_WITH='chrt -f 1' lets what is timed go first.
# Exit status: 0 all is as it should be; 1 something is not; 2 a command is missing, which is named with its package.
set -eu -o pipefail
export LC_ALL=C
root=$(cd -- "$(dirname -- "$0")/../.." && pwd)
frubanto=${FRUBANTO:-${CARGO_TARGET_DIR:-$root/target/cargo}/release/frubanto}

missing=
for command in bwa:bwa minimap2:minimap2 samtools:samtools wgsim:samtools; do
  command -v "${command%:*}" >/dev/null || missing="$missing ${command#*:}"
done
if [ -n "$missing" ]; then
  missing=$(printf '%s\n' $missing | sort -u | paste -sd ' ')
  echo "pipeline: these packages of Debian's are missing: $missing" >&2
  echo "pipeline: apt-get install $missing" >&2
  exit 2
fi
if [ ! -x "$frubanto" ]; then
  echo "pipeline: $frubanto is missing: run 'make cli' first" >&2
  exit 2
fi

folder=$(mktemp -d "${TMPDIR:-/tmp}/frubanto-pipeline.XXXXXX")
trap 'rm -rf "$folder"' EXIT
trap 'exit 1' INT TERM
cd "$folder"

fail() {
  echo "pipeline: $*" >&2
  exit 1
}

# Runs a command that has much to say, and shows it only where the command fails.
quietly() {
  "$@" 2>log || { cat log >&2; fail "$1 failed"; }
}

# A genome of 5,000,000 bases in four sequences, the same on every machine, with small letters and a run of N. The
# sample that is sequenced has its parts in another order, so that some reads lie on two places.
simulate_genome() {
  awk '
    function draw(bound) { state = state * 16807 % 2147483647; return state % bound }
    BEGIN {
      state = 20505
      split("A C G T", letter, " ")
      split("2600000 1500000 840000 60000", bases, " ")
      for (s = 1; s <= 4; s++) {
        print ">chr" s " simulated"
        for (at = 0; at < bases[s]; at += 60) {
          line = ""
          for (k = 0; k < 60 && at + k < bases[s]; k++) line = line letter[draw(4) + 1]
          if (at % 90000 < 3000) line = tolower(line)
          if (s == 1 && at >= 600000 && at < 603000) gsub(/./, "N", line)
          print line
        }
      }
    }' > genome.fa
  awk '
    function end_sequence(   part, k) {
      for (part = int((lines - 1) / 500); part >= 0 && lines > 0; part--)
        for (k = part * 500; k < lines && k < part * 500 + 500; k++) print line[k]
      lines = 0
    }
    /^>/ { end_sequence(); print; next }
    { line[lines++] = $0 }
    END { end_sequence() }' genome.fa > sample.fa
}

# simulate_reads PAIRS: r1.fq and r2.fq, with variants and errors as short reads have them. The simulator counts pairs
# in hexadecimal, of which a block cannot hold names; they get names as a sequencer gives them: lane, tile and place.
simulate_reads() {
  quietly wgsim -S 11 -N "$1" -e 0.002 -r 0.001 -R 0.15 -1 150 -2 126 sample.fa r1.fq r2.fq > variants.txt
  local mate
  for mate in 1 2; do
    awk -v mate="$mate" '
      function draw(bound) { state = state * 16807 % 2147483647; return state % bound }
      BEGIN { state = 20505 }
      NR % 4 == 1 {
        pair = (NR - 1) / 4
        tile = int(pair / 5000)
        x = 1000 + draw(31000)
        y = 1000 + pair % 5000 * 6 + draw(6)
        $0 = "@SIM00042:7:HXYWDSX2:" (1 + int(tile / 78)) ":" (1101 + tile % 78) ":" x ":" y "/" mate
      }
      { print }' "r$mate.fq" > named.fq
    mv named.fq "r$mate.fq"
  done
}

# compare_reads READS.sam READS.txt: line k of the text is the name and the read of primary record k, and each read is
# there once.
compare_reads() {
  samtools view -F 0x900 "$1" | cut -f 1,2 | paste - "$2" | awk -F '\t' '
    FILENAME != "-" {
      if (FNR % 4 == 1) {
        name = substr($1, 2)
        sub(/\/[12]$/, "", name)
        name = name (FILENAME == "r1.fq" ? 1 : 2)
      }
      if (FNR % 4 == 2) { letters[name] = $1; reads++ }
      next
    }
    {
      name = $1 (int($2 / 128) % 2 ? 2 : 1)
      if ($3 != $1) { print "pipeline: read " $1 " is named " $3 > "/dev/stderr"; wrong++ }
      if (letters[name] != $4) { print "pipeline: read " name " is " $4 > "/dev/stderr"; wrong++ }
      letters[name] = "taken"
      records++
    }
    END {
      if (wrong || records != reads) {
        print "pipeline: " wrong + 0 " wrong, " records + 0 " of " reads > "/dev/stderr"
        exit 1
      }
    }' r1.fq r2.fq -
}

# counted WORDS: the number before these words in the summary.
counted() {
  awk -v words="$1" '{ count = $1; $1 = "" } substr($0, 2) == words { print count; exit }' summary
}

# bits SUMMARY: the bits a base that it tells.
bits() {
  sed -n '1s/.* \([0-9.]*\) bits a base$/\1/p' "$1"
}

# run_mapper NAME: NAME.sam, encoded, validated, decoded and compared.
run_mapper() {
  "$frubanto" encode --kinds -r genome.ref -o "$1.ora" "$1.sam" 2> summary || { cat summary >&2; fail "encode failed"; }
  "$frubanto" validate -r genome.ref "$1.ora" > verdict || { cat verdict >&2; fail "validate failed"; }
  "$frubanto" decode --names -r genome.ref "$1.ora" > "$1.txt" || fail "decode failed"
  compare_reads "$1.sam" "$1.txt" || fail "the reads of $1 are not those of the simulator"
  "$frubanto" decode --fasta -r genome.ref "$1.ora" | cmp - <(awk '{ print ">" $1 "\n" $2 }' "$1.txt") \
    || fail "FASTA has other names or letters"
  samtools view -h "$1.sam" | "$frubanto" encode --threads 1 --c-time 7 -r genome.ref -o - 2>/dev/null > one.ora
  "$frubanto" encode --c-time 7 -r genome.ref -o all.ora "$1.sam" 2>/dev/null
  cmp one.ora all.ora || fail "one thread and all of them differ"
  "$frubanto" encode --no-names -r genome.ref -o unnamed.ora "$1.sam" 2> unnamed
  cmp <(cut -f 2 "$1.txt") <("$frubanto" decode -r genome.ref unnamed.ora) || fail "without names the letters differ"
  printf '%-9s %8s %9s %8s %7s %7s %7s %14s %12s %11s\n' "$1" "$(counted reads)" "$(counted 'stored perfect')" \
    "$(counted 'stored global')" "$(counted 'stored local')" "$(counted 'stored raw')" \
    "$(counted 'without a place: gaps or splices')" "$(counted 'left out: supplementary')" \
    "$(bits unnamed)" "$(bits summary)"
}

pipeline() {
  simulate_genome
  simulate_reads 100000
  quietly "$frubanto" reference genome.fa -o genome.ref
  cat log
  quietly samtools faidx genome.fa
  cmp genome.fa.fai genome.ref.fai || fail "the index is not that of samtools"
  quietly bwa index genome.fa
  quietly bwa mem genome.fa r1.fq r2.fq > bwa.sam
  quietly minimap2 -a -x sr genome.fa r1.fq r2.fq > minimap2.sam
  printf '%-9s %8s %9s %8s %7s %7s %7s %14s %12s %11s\n' \
    mapper reads perfect global local raw gapped supplementary 'bits a base' 'with names'
  run_mapper bwa
  run_mapper minimap2
  echo "names and letters of every primary record are those of the simulator"
}

# seconds COMMAND...: how long it takes, its output going nowhere.
seconds() {
  local start=$EPOCHREALTIME
  "$@" > /dev/null || fail "$* failed"
  awk -v start="$start" -v end="$EPOCHREALTIME" 'BEGIN { print end - start }'
}

# time_ways: the best of five turns, in which all ways in the array `ways` take part; into the array `best`.
time_ways() {
  local turn name taken
  for turn in 1 2 3 4 5; do
    for name in "${!ways[@]}"; do
      # The words of a way have no spaces in them.
      taken=$(seconds ${BENCH_WITH:-} ${ways[$name]}) || return 1
      best[$name]=$(awk -v best="${best[$name]:-}" -v taken="$taken" \
        'BEGIN { print best == "" || taken < best ? taken : best }')
    done
  done
}

# peak COMMAND...: the most memory that it takes, in KiB, its output going nowhere.
peak() {
  local most=0 now name value
  "$@" > /dev/null &
  local id=$!
  while :; do
    now=
    # Read by the shell itself, so that a short run is looked at often.
    { while read -r name value _; do
      if [ "$name" = VmHWM: ]; then now=$value; fi
    done < "/proc/$id/status"; } 2>/dev/null || break
    [ -n "$now" ] || break
    most=$now
    sleep 0.002
  done
  wait "$id" || fail "$* failed"
  echo "$most"
}

bench() {
  simulate_genome
  simulate_reads 1000000
  quietly "$frubanto" reference genome.fa -o genome.ref
  quietly minimap2 -t "$(nproc)" -a -x sr genome.fa r1.fq r2.fq > all.sam
  "$frubanto" encode -r genome.ref -o all.ora all.sam
  samtools view -b -o all.bam all.sam
  rm -f all.sam r1.fq r2.fq
  cmp <("$frubanto" decode -r genome.ref all.ora) <(samtools fasta all.bam 2>/dev/null | grep -v '^>') \
    || fail "decode and samtools fasta print other letters"
  # Files that are joined are a file.
  for _ in 1 2 3 4 5 6 7 8 9 10; do cat all.ora; done > tenfold.ora

  declare -A ways best
  ways[validate_1]="$frubanto validate --threads 1 -r genome.ref tenfold.ora"
  ways[validate_2]="$frubanto validate --threads 2 -r genome.ref tenfold.ora"
  ways[decode_1]="$frubanto decode --fasta --threads 1 -r genome.ref all.ora"
  ways[decode_2]="$frubanto decode --fasta --threads 2 -r genome.ref all.ora"
  ways[samtools_1]="samtools fasta all.bam"
  ways[samtools_2]="samtools fasta -@ 1 all.bam"
  time_ways 2>log || { cat log >&2; exit 1; }

  echo "| 2,000,000 reads of 150 and 126 letters | |"
  echo "|---|---|"
  row "validate, ten such files joined, speed, two threads to one" "${best[validate_1]}" "${best[validate_2]}"
  row "decode to FASTA, speed, two threads to one" "${best[decode_1]}" "${best[decode_2]}"
  row "decode to FASTA, speed, to samtools fasta, one thread each" "${best[samtools_1]}" "${best[decode_1]}"
  row "decode to FASTA, speed, to samtools fasta, two threads each" "${best[samtools_2]}" "${best[decode_2]}"
  local way threads words
  for way in validate 'decode --fasta'; do
    for threads in 1 2; do
      words="$frubanto $way --threads $threads -r genome.ref"
      row "${way% *}, memory, ten such files joined to one, threads: $threads" \
        "$(peak $words tenfold.ora)" "$(peak $words all.ora)"
    done
  done
  for way in "${!best[@]}"; do
    echo "$way: ${best[$way]} s" >&2
  done
  echo "decode_2: $(peak $words all.ora) KiB" >&2
}

# row WORDS ONE OTHER: a row of a table, with a ratio.
row() {
  awk -v words="$1" -v one="$2" -v other="$3" 'BEGIN { printf "| %s | %.2f |\n", words, one / other }'
}

case "${1:-}" in
  '') pipeline ;;
  bench) bench ;;
  *) echo "usage: pipeline.sh [bench]" >&2; exit 2 ;;
esac
