#!/usr/bin/env bash
# Lists each line of the program's crates where a refusal of memory is made by hand, in place of one that the allocator or the
# system gave. Anybody can write `AllocError`, `AllocFailed`, or an error of the system whose kind is that no memory was found, and
# ask for more memory than there can be, or for a `refusal` of one who does; a body that answers `memory` at will has to do one of
# these. Below stands each such line with the three lines of code that lead to it, contracts and lone braces left out, and
# docs/DECISIONS.md says why they may stand. It ends with status 1 where there is another, or one is gone, or what leads to it has
# changed, as a condition that holds more often. It looks at text alone: a number that is worked out to be too large it does not
# find, nor what a macro writes, nor a change further up.
# Usage: bench/made_refusals.sh
set -euo pipefail
cd "$(dirname "$0")/.."
export LC_ALL=C

# In `out_of_memory` a refusal is made of what it is given, and in `server` of the system's refusal of a thread. Each other one is
# made of nothing.
read -r -d '' wanted << 'END' || true
crates/base_shards/src/shard.rt: fn keeps_part(&self, number: u8) -> Result<(), OutOfMemory> / if self.number == number { / return Ok(()); / Err(OutOfMemory::from(AllocError))
crates/join_rows/src/entry.rt: self.key_len as usize + self.value_len as usize / pub fn lay(bytes: &mut Vec<u8>, key: &[u8], value: &[u8]) -> Result<Entry, OutOfMemory> / let Ok(start) = u32::try_from(bytes.len()) else { / return Err(refusal(*bytes.allocator()));
crates/join_rows/src/leaves.rt: value: &str, / ) -> Result<u64, OutOfMemory> / if count == u64::MAX { / return Err(refusal(alloc));
crates/join_rows/src/packed.rt: fn sum_of(alloc: Global, count: usize, more: usize) -> Result<usize, OutOfMemory> / match count.checked_add(more) { / Some(sum) => Ok(sum), / None => Err(refusal(alloc)),
crates/join_rows/src/refusing.rt:  / use out_of_memory::OutOfMemory; / use std::alloc::Global; / pub fn refusal(alloc: Global) -> OutOfMemory {
crates/join_rows/src/refusing.rt: use out_of_memory::OutOfMemory; / use std::alloc::Global; / pub fn refusal(alloc: Global) -> OutOfMemory { / match Vec::<u8>::with_capacity(alloc, usize::MAX) {
crates/load_run/src/acting.rt: let _position = match client.write(rt, change) { / Reply::Done(position) => position, / Reply::Memory(memory) => return Err(memory), / _ => return Err(OutOfMemory::from(AllocError)),
crates/load_run/src/declaring.rt: let position = match first.declare(rt, join) { / Reply::Done(position) => position, / Reply::Memory(memory) => return Err(memory), / _ => return Err(OutOfMemory::from(AllocError)),
crates/load_run/src/declaring.rt: _ => return Err(OutOfMemory::from(AllocError)), / }; / if before.checked_add(1) != Some(position) { / return Err(OutOfMemory::from(AllocError));
crates/load_run/src/held.rt: pub fn add_bytes(bytes: u64, more: u64) -> Result<u64, OutOfMemory> / match bytes.checked_add(more) { / Some(sum) => Ok(sum), / None => Err(OutOfMemory::from(AllocError)),
crates/out_of_memory/src/lib.rt: impl Model for OutOfMemory { / impl From<AllocError> for OutOfMemory { / fn from(_error: AllocError) -> Self { / OutOfMemory { refused: () }
crates/out_of_memory/src/lib.rt: OutOfMemory { refused: () } / impl<T: Drop> From<AllocFailed<T>> for OutOfMemory { / fn from(_failed: AllocFailed<T>) -> Self { / OutOfMemory { refused: () }
crates/out_of_memory/src/lib.rt: OutOfMemory { refused: () } / impl OutOfMemory { / pub fn split<T>(failed: AllocFailed<T>) -> (OutOfMemory, T) / let AllocFailed { value } = failed;
crates/out_of_memory/src/lib.rt: impl OutOfMemory { / pub fn split<T>(failed: AllocFailed<T>) -> (OutOfMemory, T) / let AllocFailed { value } = failed; / (OutOfMemory { refused: () }, value)
crates/out_of_memory/src/lib.rt: (OutOfMemory { refused: () }, value) / pub fn of_system(error: &io::Error) -> Option<OutOfMemory> / match error.kind() { / ErrorKind::OutOfMemory => Some(OutOfMemory { refused: () }),
crates/request_codec/src/reading.rt: Ok(value) => Ok(value), / Err(error) => { / if error.is_memory() { / Err(LineFault::OutOfMemory(AllocError.into()))
crates/server/src/beside.rt: Ok(thread) => thread, / Err(refused) => { / queue.close(rt); / return Err((OutOfMemory::from(AllocError::from(refused)), task));
crates/server/src/beside.rt: move |scope| / let _updating = match scope.spawn(move || update(rt, bell, updater)) { / Ok(thread) => thread, / Err(refused) => return Err((OutOfMemory::from(AllocError::from(refused)), task)),
crates/write_history/src/history.rt: logs.push(Log::new(alloc)?)?; / match Board::new(alloc, &words, logs, &kinds) { / Ok(made) => Ok(made), / Err(_) => Err(OutOfMemory::from(AllocError)),
crates/write_history/src/history.rt: fn together(some: u32, more: u32) -> Result<u32, OutOfMemory> / match some.checked_add(more) { / Some(count) => Ok(count), / None => Err(OutOfMemory::from(AllocError)),
END

# Types that name a refusal make none, so they are taken out of a line before it is looked at; nor does a `use` that gives no
# other name.
lines=$(
  find crates/*/src -name '*.rt' | sort | grep -vE '^crates/([a-z_]*_trials|row_texts|test_rows)/' | xargs awk '
    FNR == 1 { third = second = first = "" }
    /^ *\/\// || /^ *[{}]?$/ || /^ *(ensures|requires|ghost)/ { next }
    {
      here = $0
      sub(/^ */, "", here)
      rest = here
      gsub(/<AllocError>|, AllocError>|: AllocError\)|AllocFailed</, "", rest)
      is_use = here ~ /^(pub )?use / && here !~ / as /
      if (!is_use &&
          (rest ~ /AllocError|AllocFailed|ErrorKind::OutOfMemory|ErrorKind as|from_raw_os_error|\{ refused: \(\) \}/ ||
           rest ~ /[iu]size::MAX|MAX as usize|(^|[^a-z_])refusal\(/)) print FILENAME ": " third " / " second " / " first " / " here
      third = second
      second = first
      first = here
    }'
)
printf '%s\n' "$lines"
diff <(printf '%s\n' "$wanted") <(printf '%s\n' "$lines") >&2 || {
  echo "bench/made_refusals.sh: these lines are other ones than it says" >&2
  exit 1
}
