//! The arguments, and what `--help` says.

use clap::{Args, Parser, Subcommand};
use std::path::PathBuf;

/// Reads and writes files of opened ORA blocks: DNA reads kept as places on a reference with lists
/// of differences. All that judges or moves a byte of a block is done by a proved library.
#[derive(Parser)]
#[command(name = "frubanto", version, after_help = GENERAL)]
pub struct Arguments {
    #[command(subcommand)]
    pub command: Command,
}

const GENERAL: &str = "\
Results go to standard output and all else to standard error. An output file gets its name when it
is complete; where a command fails it is removed.

Exit status: 0 accepted; 1 refused; 2 wrong use, or a file that cannot be read or written.

Example:
  frubanto reference genome.fa -o genome.ref
  bwa mem genome.fa reads_1.fq reads_2.fq | frubanto encode -r genome.ref -o reads.ora
  frubanto validate -r genome.ref reads.ora";

#[derive(Subcommand)]
pub enum Command {
    Reference(ReferenceArguments),
    Encode(EncodeArguments),
    Decode(DecodeArguments),
    List(ListArguments),
    Validate(ValidateArguments),
    Blocks(BlocksArguments),
}

/// Packs a genome (FASTA) into a reference file
#[derive(Args)]
#[command(after_help = REFERENCE)]
pub struct ReferenceArguments {
    /// The genome; - for standard input
    #[arg(value_name = "GENOME.fa")]
    pub genome: PathBuf,
    /// The reference file; the names and lengths of its sequences go to REFERENCE.fai
    #[arg(short, long, value_name = "REFERENCE")]
    pub output: PathBuf,
}

const REFERENCE: &str = "\
The sequences are packed one after the other, in the order of the file. Small letters are taken as
capitals. Letters other than A, C, G, T are stored as A, and their number is said. REFERENCE.fai is
what `samtools faidx GENOME.fa` writes. A reference has up to 4,294,967,295 bases.

Example:
  frubanto reference genome.fa -o genome.ref
  gzip -dc genome.fa.gz | frubanto reference - -o genome.ref";

/// Encodes the output of a mapper (SAM) into a file of blocks
#[derive(Args)]
#[command(after_help = ENCODE)]
pub struct EncodeArguments {
    #[command(flatten)]
    pub reference: ReferenceOption,
    /// The file of blocks; - for standard output
    #[arg(short, long, value_name = "BLOCKS")]
    pub output: PathBuf,
    /// SAM text, as bwa mem, minimap2 -a or samtools view -h print it; - for standard input
    #[arg(value_name = "READS.sam", default_value = "-")]
    pub reads: PathBuf,
    /// Reads in a block, 1 to 50000
    #[arg(long, value_name = "NUMBER", default_value_t = 10_000)]
    #[arg(value_parser = clap::value_parser!(u32).range(1..=50_000))]
    pub reads_per_block: u32,
    /// The b_id of the first block; it counts up from there
    #[arg(long, value_name = "NUMBER", default_value_t = 0)]
    pub b_id: u64,
    /// The time that each block holds, in seconds since 1970; with it a run can be repeated to the
    /// byte [default: now]
    #[arg(long, value_name = "SECONDS")]
    pub c_time: Option<u64>,
    /// Leave out reads of more than 100,000 letters, instead of failing
    #[arg(long)]
    pub skip_long: bool,
    /// Store no names
    #[arg(long)]
    pub no_names: bool,
    /// Also count how many reads are stored perfect, global, local and raw, and raw for more than 31
    /// entries at their place; this takes longer, as the library is asked about each read
    #[arg(long)]
    pub kinds: bool,
    #[command(flatten)]
    pub threads: ThreadsOption,
}

const ENCODE: &str = "\
Each primary record is a read, both reads of a pair too. It is stored as it was printed: SEQ, turned
back where flag 0x10 is set, with its name (QNAME). Qualities and tags are not stored. The record's
place is proposed to the library, which uses it where the format can say it; otherwise the letters
are stored as they are. Either way they can all be read back.

  no place      unmapped reads; records without a sequence, position or CIGAR; gaps and splices
                (I, D, N, P); more than 255 letters clipped at one end; a place past the end of
                its sequence
  hard clips    the letters that SEQ has are stored, with their place
  left out      secondary and supplementary records; records without letters (SEQ *)
  letters       small ones are stored as capitals, U as T, and any other than A, C, G, T, N
                (the IUPAC codes) and the dot as N
  names         are stored as they are where each name of a block has 1 to 255 bytes of printable
                ASCII and all are made of equally many stretches of digits and of others; otherwise
                the block is written without names, and standard error says why
  a failure     a malformed line; a sequence that the reference has not, or has with another
                length; a read of more than 100,000 letters; = or any other sign in SEQ

The summary on standard error counts each of these. A block ends after --reads-per-block reads, or
once it has 16,777,216 letters.

Example:
  minimap2 -a -x sr genome.fa reads.fq | frubanto encode -r genome.ref -o reads.ora
  samtools view -h reads.bam | frubanto encode -r genome.ref -o reads.ora --c-time 0";

/// Prints the letters of a file of blocks, a read a line
#[derive(Args)]
#[command(after_help = DECODE)]
pub struct DecodeArguments {
    #[command(flatten)]
    pub reference: ReferenceOption,
    /// The file of blocks; - for standard input
    #[arg(value_name = "BLOCKS")]
    pub blocks: PathBuf,
    /// As FASTA, with the names
    #[arg(long)]
    pub fasta: bool,
    /// The name of each read and a tab before its letters; FASTA has the names without it
    #[arg(long)]
    pub names: bool,
    /// Where the letters go
    #[arg(short, long, value_name = "FILE", default_value = "-")]
    pub output: PathBuf,
    #[command(flatten)]
    pub threads: ThreadsOption,
}

const DECODE: &str = "\
All blocks before the first that is refused are printed, and nothing of that one. In a block without
names a read is named after the index of its block and its own in it, which count from 0: 3.17

Example:
  frubanto decode -r genome.ref reads.ora > reads.txt
  frubanto decode -r genome.ref --names reads.ora | cut -f 1 > names.txt
  frubanto decode -r genome.ref --fasta -o reads.fa reads.ora";

/// Lists a file of blocks: a line with the counts of each block, and its reads
#[derive(Args)]
#[command(after_help = LIST)]
pub struct ListArguments {
    #[command(flatten)]
    pub reference: ReferenceOption,
    /// The file of blocks; - for standard input
    #[arg(value_name = "BLOCKS")]
    pub blocks: PathBuf,
    #[command(flatten)]
    pub threads: ThreadsOption,
}

const LIST: &str = "\
The text is that of the listing program, without names. The last number of a block's line, top, is
that of its reads with 31 entries, the most that a record can have. The last line is `end blocks`
and their number, or `refused`, the number of the refusal, and the index of the block and of the
read.

Example:
  frubanto list -r genome.ref reads.ora";

/// Judges files of blocks: accepted, or refused and why
#[derive(Args)]
#[command(after_help = VALIDATE)]
pub struct ValidateArguments {
    #[command(flatten)]
    pub reference: ReferenceOption,
    /// The files of blocks; - for standard input
    #[arg(value_name = "BLOCKS", required = true)]
    pub blocks: Vec<PathBuf>,
    /// One JSON object a file, each on a line of its own
    #[arg(long)]
    pub json: bool,
    #[command(flatten)]
    pub threads: ThreadsOption,
}

const VALIDATE: &str = "\
Of an accepted file the number of blocks, reads, letters, entries and differences is said, and as
top that of the reads with 31 entries, the most that a record can have; of a refused one the number
of the refusal in words, the index of the block and of the read, and where the block begins in the
file. Every file is judged; the exit status is the highest.

Example:
  frubanto validate -r genome.ref monday.ora tuesday.ora
  frubanto validate -r genome.ref --json *.ora | jq .accepted";

/// Prints a table of the blocks of a file; needs no reference
#[derive(Args)]
#[command(after_help = BLOCKS)]
pub struct BlocksArguments {
    /// The file of blocks; - for standard input
    #[arg(value_name = "BLOCKS")]
    pub blocks: PathBuf,
}

const BLOCKS: &str = "\
Of each block: its index, where it begins in the file, its length in bytes, b_id, the number of its
reads, version, flags, and the length of each of its nine sections. Headers alone are judged.

Example:
  frubanto blocks reads.ora";

#[derive(Args)]
pub struct ReferenceOption {
    /// The reference file, which `frubanto reference` makes
    #[arg(short = 'r', long = "reference", value_name = "REFERENCE")]
    pub path: PathBuf,
}

#[derive(Args)]
pub struct ThreadsOption {
    /// How many threads work on blocks, 1 to 1024 [default: one for each core]
    #[arg(long = "threads", value_name = "NUMBER")]
    #[arg(value_parser = clap::value_parser!(u16).range(1..=1024))]
    pub number: Option<u16>,
}
