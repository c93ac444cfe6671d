#!/usr/bin/env bash
# Damages a copy of the reference, of the layer over the C functions or of a generator in one place, and sees that the comparison
# finds it; the same for the load test. A test that can't fail would show nothing. Arguments: only the faults whose entry is one of them.
set -u
cd "$(dirname "$0")/../.." || exit 1
folder=target/faults
lib=$PWD/target/staticlib
mkdir -p "$folder"
rm -rf "$folder/rust"
mkdir "$folder/rust"
cp -r rust/Cargo.toml rust/Cargo.lock rust/build.rs rust/README.md rust/src rust/examples rust/reference rust/inputs rust/compare "$folder/rust/"
export J8_LIB_DIR=$lib CARGO_TARGET_DIR=$PWD/$folder/target

only=("$@")
found=0 missed=0

# try WHAT FILE ENTRY PRINTED EDIT [SECONDS]: EDIT is for sed, PRINTED what must be said of it.
try() {
  local what=$1 file=$folder/rust/$2 entry=$3 printed=$4 edit=$5 log=$folder/log
  local command=("$CARGO_TARGET_DIR/release/compare" "$entry")
  [ "$entry" = load ] && command=("$CARGO_TARGET_DIR/release/load")
  [ ${#only[@]} -eq 0 ] || [[ " ${only[*]} " == *" $entry "* ]] || return
  cp "$file" "$folder/whole"
  sed -i -E "$edit" "$file"
  if cmp -s "$file" "$folder/whole"; then
    echo "NO EDIT: $what"
    missed=$((missed + 1))
    return
  fi
  if ! (cd "$folder/rust" && cargo build --offline --release --quiet -p j8-compare); then
    echo "NO BUILD: $what"
    missed=$((missed + 1))
  elif ! J8_SECONDS=${6:-3} "${command[@]}" >"$log" 2>&1 && grep -q -- "$printed" "$log"; then
    echo "found: $what ($entry, $(grep -m 1 -oE 'case [0-9]+|never .*|signal: [0-9]+|upload [0-9]+|grown .*' "$log" | head -n 1))"
    found=$((found + 1))
  else
    echo "MISSED: $what ($entry)"
    missed=$((missed + 1))
  fi
  cp "$folder/whole" "$file"
}

mismatch='^MISMATCH in'
try 'a text of 32,768 bytes refused' reference/src/lib.rs string_read "$mismatch" 's/text\.len\(\) > TEXT_MAX/text.len() >= TEXT_MAX/'
try 'the last low half pairs with nothing' reference/src/lib.rs string_read "$mismatch" 's/low @ 0xdc00\.\.=0xdfff/low @ 0xdc00..=0xdffe/'
try 'seven digits taken' reference/src/lib.rs string_read "$mismatch" 's/\(1\.\.=6\)\.contains/(1..=7).contains/; s/take\(7\)/take(8)/'
try 'an exact room refused' reference/src/lib.rs string_read "$mismatch" 's/if length > out\.len\(\) \{/if length > 0 \&\& length >= out.len() {/'
try 'a surrogate before overlong' reference/src/lib.rs string_read "$mismatch" 's/_ if value < least => UTF8_OVERLONG/_ if value < least \&\& !(0xd800..=0xdfff).contains(\&value) => UTF8_OVERLONG/'
try 'overlong before incomplete' reference/src/lib.rs string_read "$mismatch" 's/_ => return UTF8_INCOMPLETE/_ => return if at > 1 \&\& value < least >> (6 * (wanted + 1 - at)) { UTF8_OVERLONG } else { UTF8_INCOMPLETE }/'
try 'f5 as bad encoding' reference/src/lib.rs upload "$mismatch" 's/0xf8\.\.=0xff => return UTF8_BAD_ENCODING/0xf5..=0xff => return UTF8_BAD_ENCODING/'
try 'c1 as bad encoding' reference/src/lib.rs upload_states "$mismatch" 's/0xf8\.\.=0xff => return UTF8_BAD_ENCODING/0xc0..=0xc1 | 0xf8..=0xff => return UTF8_BAD_ENCODING/'
try 'f8 as a start' reference/src/lib.rs json8_read "$mismatch" 's/0xf8\.\.=0xff => return/0xf9..=0xff => return/; s/start @ 0xf0\.\.=0xf7 => \(start & 0x07/start @ 0xf0..=0xf8 => (start \& 0x0f/'
try 'one continuation byte of two wanted' reference/src/lib.rs tsv8_read "$mismatch" 's/\(start & 0x0f, 0x800, 2\)/(start \& 0x0f, 0x800, 1)/'
try 'c0 as a continuation byte' reference/src/lib.rs string_read "$mismatch" 's/Some\(byte @ 0x80\.\.=0xbf\)/Some(byte @ 0x80..=0xc0)/'
try 'a fault of a comment at its #' reference/src/json8.rs json8_read "$mismatch" 's/refuse_character\(comment, self\.at, fault/refuse_character(comment, self.at - fault.valid_up_to(), fault/'
try 'a fault of a bare line one byte on' reference/src/lines.rs upload "$mismatch" 's/refuse_character\(text, 0, valid\)/refuse_character(text, 1, valid)/'
try 'a control written by another digit' reference/src/lib.rs string_write "$mismatch" "s/(b'0', b'0', digit\(b >> 4\)), digit\(b & 15\)/\1, digit(b \& 7)/"
try 'a refusal in the line before' reference/src/lines.rs upload "$mismatch" 's/self\.line = self\.lfs \+ 1/self.line = self.lfs/'
try 'the place of 17' reference/src/lines.rs upload "$mismatch" 's/let place = self\.held/let place = self.taken/'
try 'a line of 1,024 bytes refused' reference/src/lines.rs upload "$mismatch" 's/^pub const LINE_MAX: usize = 1_024/pub const LINE_MAX: usize = 1_023/'
try 'more LFs than bytes' reference/src/lines.rs upload_states "$mismatch" 's/self\.lfs > self\.taken/self.lfs > self.taken + 1/'
try 'used past the output' reference/src/lines.rs upload_states "$mismatch" 's/self\.used > room/self.used > room + 1/'
try 'an upload ended before it is refused' reference/src/lines.rs upload_states "$mismatch" 's/else if self\.refusal != 0 \{/else if self.refusal != 0 \&\& !self.ended {/'
try 'kind 257 taken as kind 1' reference/src/lines.rs lines_write "$mismatch" 's/if kind == kind_of\(payload\)/if kind \& 255 == kind_of(payload)/'
try '33 brackets taken' reference/src/json8.rs json8_read "$mismatch" 's/if open == DEPTH_MAX/if open == DEPTH_MAX + 1/'
try '1,025 nodes taken' reference/src/json8.rs json8_read "$mismatch" 's/self\.nodes\.len\(\) == NODES_MAX/self.nodes.len() == NODES_MAX + 1/'
try '-0 refused' reference/src/json8.rs json8_read "$mismatch" "s/let unsigned = token/if token == b\"-0\" { return None; }\n    let unsigned = token/"
try 'an empty string at the end hidden' reference/src/json8.rs json8_show "$mismatch" 's/end <= buffer\.len\(\) as u64/end < buffer.len() as u64/'
try 'the end of a range in 32 bits' reference/src/json8.rs json8_show "$mismatch" 's/u64::from\(place\) \+ u64::from\(length\)/u64::from(place.wrapping_add(length))/'
try 'no stored key written' reference/src/json8/write.rs json8_write "$mismatch" 's/\[PLAIN \| DECODED, \.\.\]/[PLAIN, ..]/'
try 'a number of the other kind written' reference/src/json8/write.rs json8_write "$mismatch" 's/number_kind\(token\) != Some\(kind\)/number_kind(token).is_none()/'
try 'a false count of members' reference/src/json8/write.rs json8_write "$mismatch" 's/page\)\? != length/page)? > length/'
try '65 columns taken' reference/src/tsv8.rs tsv8_read "$mismatch" 's/\(1\.\.=COLUMNS_MAX\)/(1..=COLUMNS_MAX + 1)/'
try 'a third line of types taken' reference/src/tsv8.rs tsv8_read "$mismatch" 's/if !is_second \{/if !is_second \&\& line.start == 0 {/'
try '-0 taken as Int' reference/src/tsv8.rs tsv8_read "$mismatch" "s/let digits_only = .*/let digits_only = !token.iter().any(|b| b\".eE\".contains(b));/"
try 'a line of tabs ignored' reference/src/tsv8.rs tsv8_read "$mismatch" "s/matches!\(b, b' ' \| b'\\\\r'\)/matches!(b, b' ' | b'\\\\r' | b'\\\\t')/"
try '21 behind the blanks' reference/src/tsv8.rs tsv8_read "$mismatch" 's/None => refuse\(WRONG_TYPE, cell\.start\)/None => refuse(WRONG_TYPE, at)/'
try '21 before a fault of the cell' reference/src/tsv8.rs tsv8_read "$mismatch" 's/^( *)judge_bare\(token\)\.map_err\(in_text\)\?;/\1if bare_kind(token, column).is_some() { judge_bare(token).map_err(in_text)?; }/'
try 'types written though the cells have no room' reference/src/tsv8.rs tsv8_read "$mismatch" 's/if !fits \{/if !fits { if sheet.types.len() <= types.len() { fill(types, \&sheet.types); }/'
# Over the C functions: a byte outside what is lent, a lent byte, an input, a field, a crash. A pointer to an input goes by black_box: the compiler
# leaves out a write where it knows that nothing may be written, and there would be no fault to find.
try 'a byte behind the room written' src/raw.rs string_write "$mismatch" 's/^(pub fn string_write\(.*\{)$/\1 unsafe { out.as_mut_ptr().add(out.len()).write(0xa5) };/'
try 'a byte before the line buffer written' src/raw.rs upload "$mismatch" 's/^(pub fn upload_feed\(.*\{)$/\1 unsafe { line.as_mut_ptr().sub(1).write(0xa5) };/'
try 'the last byte of a store written' src/raw.rs json8_read "$mismatch" 's/^(pub fn json8_read\(.*\{)$/\1 if let Some(last) = store.last_mut() { *last ^= 1; }/'
try 'the text of a table written' src/raw.rs json8_write "$mismatch" 's/^(pub fn json8_write\(.*\{)$/\1 if !text.is_empty() { unsafe { std::hint::black_box(text.as_ptr().cast_mut()).write(0xa5) } };/'
try 'the number behind a table written' src/raw.rs json8_show "$mismatch" 's/^(pub fn json8_show\(.*\{)$/\1 unsafe { std::hint::black_box(table.as_ptr().cast_mut()).add(table.len()).write(5) };/'
try 'a byte of a text written' src/raw.rs string_read "$mismatch" 's/^(pub fn string_read\(.*\{)$/\1 if let [.., last] = text { unsafe { std::hint::black_box(std::ptr::from_ref(last).cast_mut()).write(0xa5) } };/'
try 'a byte behind a piece written' src/raw.rs upload_states "$mismatch" 's/^(pub fn upload_feed\(.*\{)$/\1 unsafe { std::hint::black_box(piece.as_ptr().cast_mut()).add(piece.len()).write(0xa5) };/'
try 'the number behind the cells written' src/raw.rs tsv8_read "$mismatch" 's/^\) -> j8_sheet \{$/) -> j8_sheet { unsafe { cells.as_mut_ptr().add(cells.len()).write(5) };/'
try 'a name written where the rest is no room' src/raw.rs tsv8_read "$mismatch" 's/^\) -> j8_sheet \{$/) -> j8_sheet { if names.len() % 3 == 1 { names[names.len() - 1] ^= 1 };/'
try 'a fresh upload that is ended' src/raw.rs upload "$mismatch" 's/unsafe \{ j8_upload_fresh\(\) \}/j8_upload { ended: 1, ..unsafe { j8_upload_fresh() } }/'
try 'a finish that keeps a held byte' src/raw.rs upload "$mismatch" 's/^(pub fn upload_finish\()upload(: .*\{)$/\1mut upload\2 upload.held = upload.held.saturating_sub(1);/'
try 'a crash' src/raw.rs lines_write 'compare --replay lines_write 1 ' 's/^(pub fn lines_write\(.*\{)$/\1 if records.len() == 77 { std::process::abort() };/'
# Of the generators: one that no longer reaches something. It takes a whole run to be sure.
try 'no upload about the limit made' inputs/src/lines.rs upload 'upload_feed never answered 17' 's/once_in\(600\)/once_in(1 << 31)/' 20
try 'no text with the most cells made' inputs/src/tsv8.rs tsv8_read 'never reached: 16,182 cells read' 's/62, 62, 62, 64/61, 63, 64/' 20
try 'an upload that is never freed' compare/src/load.rs load 'load: FAILED' 's/drop\(\(text, line, output, upload\)\)/drop((text, line, output)); std::mem::forget(upload)/'
try 'a record that is lost' src/raw.rs load '^WRONG' 's/^(pub fn upload_finish\()upload(: .*\{)$/\1mut upload\2 upload.held = 0;/'

echo "faults: $found found, $missed not"
[ "$missed" -eq 0 ]
