#!/bin/sh
# Plants one error at a time in a copy of the model, and expects differ to find it.
#
# planted.sh LARGE-DRIVER SMALL-DRIVER [SEED [HALF]]    the driver commands over libshelf_c.a and libsmall_c.a; HALF is 0 or 1, and
# plants every second error. Without it both halves run side by side: one by itself leaves a core idle most of the time.
set -eu
here=$(cd "$(dirname "$0")" && pwd)
large_driver=$1
small_driver=$2
seed=${3:-6201}
if [ $# -lt 4 ]; then
    status=0
    "$here/planted.sh" "$large_driver" "$small_driver" "$seed" 0 &
    "$here/planted.sh" "$large_driver" "$small_driver" "$seed" 1 || status=1
    wait $! || status=1
    exit $status
fi
half=$4
number=0
calls=300000
work=$(mktemp -d)
trap 'rm -rf "$work"' EXIT
export CARGO_TARGET_DIR="$work/target"
# What an error leaves unused is no news.
export RUSTFLAGS='--cap-lints allow'
# Most of the time goes into the builds, and an error leaves all but a few functions as they were. Nearly every error is found
# within a few thousand calls, which take less time than to optimize for them.
export CARGO_INCREMENTAL=1 CARGO_PROFILE_RELEASE_CODEGEN_UNITS=256 CARGO_PROFILE_RELEASE_OPT_LEVEL=0 CARGO_PROFILE_RELEASE_DEBUG=0

large() { plant large "$large_driver" "$@"; }
small() { plant small "$small_driver" "$@"; }

# plant PROFILE DRIVER NAME FILE OLD NEW: OLD is a basic regular expression that fits in exactly one line of the file.
plant() {
    profile=$1
    driver=$2
    shift 2
    number=$((number + 1))
    [ $((number % 2)) -eq "$half" ] || return 0
    rm -rf "$work/second"
    mkdir "$work/second"
    cp -r "$here/Cargo.toml" "$here/Cargo.lock" "$here/build.rs" "$here/src" "$work/second/"
    file=$work/second/src/$2
    [ "$(grep -c -e "$3" "$file")" = 1 ] || { echo "planted.sh: $1: not exactly one line of $2 has $3" >&2; exit 1; }
    sed -i -e "s/$3/$4/" "$file"
    # A copy keeps its time, and cargo goes by the time.
    touch "$file"
    cargo build --quiet --release --offline --bin differ --manifest-path "$work/second/Cargo.toml"
    if "$work/target/release/differ" "$profile" "$driver" "$calls" "$seed" >"$work/said"; then
        echo "$profile: $1: NOT FOUND in $calls calls"
        missed=1
    elif found=$(grep -E -o -m1 '^call [0-9]+: the two disagree' "$work/said"); then
        echo "$profile: $1: ${found%%:*}, $(sed -n 's/^the call: //p' "$work/said")"
    else
        echo "$profile: $1: differ failed, but not by a disagreement" >&2
        cat "$work/said" >&2
        exit 1
    fi
}

missed=0
large 'rows read and written from the wrong end' permission.rs '(WIDTH - 1 - group \/ 8, group % 8)' \
    '(group \/ 8, group % 8)'
large "a group's bit read from the wrong end of its byte" permission.rs 'row\[byte\] >> bit & 1' 'row[byte] >> (7 - bit) \& 1'
large 'an order written to the next bit' permission.rs 'u8::from(on) << bit' 'u8::from(on) << (bit + 1) % 8'
large 'the fill of an odd k judged as a descriptor' smp.rs '\[\.\.2 \* k\]' '[..2 * k + fill]'
large 'OPEN: a participating phy speaks for its own group' speaking.rs 'Group::low_7_bits(zone_byte)' 'arriving.group'
large 'a participating phy speaks for its own group' speaking.rs 'Group::from_outside(carried).ok_or(Refusal::Kind)' \
    'Ok(arriving.group)'
large 'only one of (a,b) and (b,a) written' permission.rs 'write_one(&mut rows\[b.index()\], a.index(), on);' ''
large 'a batch row writes bits 0 and 1' permission.rs 'named & !UNNAMED | old & UNNAMED' 'named'
large 'a route to a phy that is not ready' open.rs '&& is_ready(route.phy)' '\&\& usize::from(route.phy) < phys.len()'
large 'a route gives its phy the group' open.rs 'group: route.group?' \
    'group: route.group.map(|_| PhyRecord::from(\&phys[usize::from(route.phy)]).group)?'
large 'a known address is not asked for' links.rs 'before.address_known && ' ''
large 'carried of 256 and more cut to a byte' smp.rs 'u8::try_from(carried).map_err(|_| Refusal::Kind)?' 'carried as u8'
large '93h: start with all 8 bits' smp.rs 'request\[6\] & 0x7f' 'request[6]'
large '51h: one row short at the end' smp.rs 'min(GROUPS - start)' 'min(GROUPS - 1 - start)'
large 'election: the least wins' links.rs 'address != 0)\.max()' 'address != 0).min()'
large 'length checked before readiness' smp.rs 'let arriving = ready' \
    'refuse_if(request.len() < HEADER, Refusal::Length)?; let arriving = ready'
large 'ports: zero addresses are one port' ports.rs ' && a.address != 0' ''
large 'ports: all but the last byte of an address' ports.rs 'a.address == b.address' 'a.address >> 8 == b.address >> 8'
large 'ports: sisters have one group' ports.rs 'a.address == b.address' '(a.address, a.group) == (b.address, b.group)'
large 'ports: an address that is not known does not count' ports.rs 'a.ready && b.ready' 'a.address_known \&\& b.address_known'
large 'a broadcast: the highest named' broadcast.rs '(0\.\.phy)' '(phy + 1..phys.len())'
large 'a broadcast: the lowest ready phy named though not permitted' broadcast.rs 'set | 1 << phy' \
    'set | 1 << (0..phy).find(|\&lower| same_port(phys, lower, phy)).unwrap_or(phy)'
large 'a broadcast: none named where the lowest ready phy is not permitted' broadcast.rs \
    '\.filter(is_permitted)\.any(' '.any('
large 'a broadcast: a phy that is not ready stands for its port' broadcast.rs \
    '\.filter(is_permitted)\.any(|lower| same_port(phys, lower, phy))' \
    '.any(|lower| phys[lower][4..12] == phys[phy][4..12] \&\& phys[phy][4..12] != [0; 8] \&\& (is_permitted(\&lower) || phys[lower][2] \& 1 == 0))'
large 'a broadcast: all permitted phys of a port named' broadcast.rs '!has_lower(phy)' 'true'
large "a broadcast: the arriving phy's port told" broadcast.rs '!same_port(phys, arriving, phy)' 'phy != arriving'
large 'OPEN: forwarded to a sister' open.rs 'same_port(phys, place, found.phy)' 'place == found.phy'
large 'OPEN: a sister counts only in the phy table' open.rs 'same_port(phys, place, found.phy)' \
    'place == found.phy || arriving.address == destination(frame)'
large 'OPEN: ZONE VIOLATION before BAD DESTINATION' open.rs 'same_port(phys, place, found.phy)' \
    'same_port(phys, place, found.phy) \&\& permitted(rows, source_of_open(\&arriving, frame[ZONE_BYTE]), found.group)'
large 'a change notice: one phy of each port' smp.rs 'phy_set(phys, |_| true)' \
    'phy_set(phys, |_| true) \& !(0..phys.len()).filter(|\&phy| (0..phy).any(|lower| crate::ports::same_port(phys, lower, phy))).fold(0, |set, phy| set | 1 << phy)'
# Bytes that are no group: those of the three places that read one are the same on both shelves.
for shelf in large small; do
    $shelf 'no group: the carried one modulo 128' smp.rs 'source_from_outside(&arriving, carried)' \
        'source_from_outside(\&arriving, carried \& 0x7f)'
    $shelf 'no group: byte 3 of a frame modulo 128' broadcast.rs 'frame\[GROUP_BYTE\])' 'frame[GROUP_BYTE] \& 0x7f)'
    $shelf "no group: a route's modulo 128 in the search" open.rs 'map(RouteRecord::from)' \
        'map(|route| RouteRecord { group: Some(Group::low_7_bits(route[9])), ..route.into() })'
    $shelf "no group: a route's modulo 128 in the election" links.rs '\.filter(|record| record\.group\.is_some())' ''
done
large 'no group: only above 128' tables.rs '(byte <= 127)\.then_some(Group(byte))' \
    '(byte <= 128).then_some(Group(byte \& 0x7f))'
large 'no group: only 255' tables.rs '(byte <= 127)\.then_some(Group(byte))' '(byte < 255).then_some(Group(byte \& 0x7f))'
large 'no group: 127 as well' tables.rs 'byte <= 127' 'byte < 127'
large 'no group: refused on a phy that is not participating as well' speaking.rs 'Ok(arriving\.group)' \
    'Group::from_outside(carried).map(|_| arriving.group).ok_or(Refusal::Kind)'
large 'no group: a frame refused 5 on a phy that is not participating' broadcast.rs 'refuse_if(!arriving\.participating,' \
    'Group::from_outside(frame[GROUP_BYTE]).ok_or(Refusal::Kind)?; refuse_if(!arriving.participating,'
large 'no group: a skipped route ends the search' open.rs 'find_map(\(.*\))' 'next().and_then(\1)'
large 'no group: an unknown function answered' smp.rs 'source_from_outside(&arriving, carried)?' \
    'match request[1] { 0x93 | 0xc1 | 0x51 | 0x10 => source_from_outside(\&arriving, carried)?, _ => arriving.group }'
large 'no group: refused before the length' smp.rs 'refuse_if(request\.len() < HEADER,' \
    'source_from_outside(\&arriving, carried as u8)?; refuse_if(request.len() < HEADER,'
large 'no group: byte 20 of an OPEN as well' open.rs 'let source = source_of_open' \
    'if arriving.participating { Group::from_outside(frame[ZONE_BYTE]).ok_or(Refusal::Kind)?; } let source = source_of_open'
large 'no group: byte 1 of a phy record as well' open.rs '\.map(PhyRecord::from)' \
    '.map(|record| PhyRecord { ready: record[2] \& 1 == 1 \&\& record[1] <= 127, ..record.into() })'
# DISCOVER, and the numbers that came with it.
large 'DISCOVER: attached fields shown for a phy that is not ready' discover.rs 'if phy\.ready {' 'if true {'
for shelf in large small; do
    $shelf 'DISCOVER: P asked the other way round' discover.rs 'permitted(rows, source, phy\.group)' \
        'permitted(rows, phy.group, source)'
done
large 'DISCOVER: 16h before 10h' discover.rs 'let record = phys' \
    'turn_down_if(request[8] \& 1 == 0 \&\& !phys.get(usize::from(asked)).is_some_and(|phy| permitted(rows, source, PhyRecord::from(phy).group)), TurnedDown::PhyVacant)?; let record = phys'
large 'DISCOVER: the ignore bit the other way round' discover.rs '& IGNORE_ZONE_GROUP != 0' '\& IGNORE_ZONE_GROUP == 0'
large 'DISCOVER: the ignore bit is bit 1' discover.rs 'const IGNORE_ZONE_GROUP: u8 = 1 << 0' \
    'const IGNORE_ZONE_GROUP: u8 = 1 << 1'
large 'DISCOVER: the right asked' discover.rs 'let asked = request\[9\]' \
    'turn_down_if(!crate::permission::may_change_zoning(rows, source), TurnedDown::UnknownFunction)?; let asked = request[9]'
large 'DISCOVER: a member sees its own group' discover.rs '!permitted(rows, source, phy\.group)' \
    'source != phy.group \&\& !permitted(rows, source, phy.group)'
large 'DISCOVER: the low 7 bits of byte 9' discover.rs 'usize::from(asked)' 'usize::from(asked \& 0x7f)'
large 'DISCOVER: byte 3 of zero turned down' discover.rs '\[0x02, 0x00\]' '[0x02, 0x02]'
large 'DISCOVER: the two counts swapped' discover.rs 'let asked = request' \
    'let changes = Changes { expander: changes.phy.into(), phy: changes.expander as u8 }; let asked = request'
large 'DISCOVER: the least significant byte first' discover.rs 'changes\.expander\.to_be_bytes()' \
    'changes.expander.to_le_bytes()'
large "IDENTIFY: the type's high bits kept" links.rs 'device_type & DEVICE_TYPE' 'device_type'
large 'IDENTIFY: reserved bits of byte 12 stay' links.rs 'record\[12\] = ' 'record[12] = record[12] \& 0xf8 | '
large 'IDENTIFY: a wide number refused before the length' links.rs 'let address: \[u8; 8\]' \
    'refuse_if(device_type > 255, Refusal::Kind)?; let address: [u8; 8]'
large 'a wide phy count refused for DISCOVER alone' smp.rs 'u8::try_from(phy_changes)\.map_err(|_| Refusal::Kind)?' \
    'if request[1] == DISCOVER { u8::try_from(phy_changes).map_err(|_| Refusal::Kind)? } else { 0 }'
# What a member can learn: an answer that hangs on a hidden phy's record, and premises of request 04 that are not asked
# for, so that pairs are taken for alike though they are not.
for shelf in large small; do
    $shelf 'DISCOVER: a hidden phy that is not ready does not exist' discover.rs 'TurnedDown::PhyVacant)' \
        'if phy.ready { TurnedDown::PhyVacant } else { TurnedDown::PhyDoesNotExist })'
    $shelf 'alike: phys that are ready in neither need not have equal records' alike.rs 'of_one\[phy\] == of_other\[phy\]' \
        '(of_one[phy][2] | of_other[phy][2]) \& 1 == 0 || of_one[phy] == of_other[phy]'
    $shelf 'alike: the phys permitted need not be the same' alike.rs \
        'permitted_phys::<WIDTH>(one) == permitted_phys::<WIDTH>(other)' 'true'
done
large 'alike: the counts need not be the same' alike.rs 'same_counts(one, other)' 'true'
large 'alike: the sizes need not be equal' alike.rs 'equal_sizes(one, other)' 'true'
large 'alike: the buffers need not be equal' alike.rs 'equal_buffers(one, other)' 'true'
large 'alike: ready in one is enough' alike.rs 'is_ready(one) && is_ready(other)' 'is_ready(one) || is_ready(other)'
large 'alike: P asked the other way round' alike.rs 'permitted(rows, source, group)' 'permitted(rows, group, source)'
large 'alike: the ignore bit may be one' alike.rs ' && !ignore_bit' ''
small 'alike: no group above 7 is permitted' alike.rs 'permitted(rows, source, group)' \
    'group.is_in_table(WIDTH) \&\& permitted(rows, source, group)'
small 'DISCOVER: groups above 7 shown to all' discover.rs '!permitted(rows, source, phy\.group)' \
    'phy.group.is_in_table(WIDTH) \&\& !permitted(rows, source, phy.group)'
small 'groups modulo 8' permission.rs 'match rows.get(a.index()) {' \
    'let [a, b] = [a, b].map(|group| Group::low_7_bits(group.number() % 8)); match rows.get(a.index()) {'
small 'groups 8 and 9 reach each other' permission.rs 'a.index() == GROUP_1 || b.index() == GROUP_1' \
    'a.index() == GROUP_1 || b.index() == GROUP_1 || [a.index().min(b.index()), a.index().max(b.index())] == [8, 9]'
small 'group 1 does not reach group 8' permission.rs 'a.index() == GROUP_1 ||' 'a.index() == GROUP_1 \&\& b.index() != 8 ||'
small 'group 8 does not reach group 1' permission.rs '|| b.index() == GROUP_1' '|| b.index() == GROUP_1 \&\& a.index() != 8'
small "a batch row's bit for group 8 written for group 2" permission.rs 'let new = new.last_chunk()' \
    'let mut row = *new; row[15] |= (row[14] \& 1) << 2; let new = row.last_chunk()'
small 'C1h: 02h for a row above 7 before 11h' smp.rs 'turn_down_if(start + k > GROUPS,' \
    'turn_down_if(start + k > groups_of_table(WIDTH) \&\& k > 0, TurnedDown::Failed)?; turn_down_if(start + k > GROUPS,'
small 'C1h: a batch of no rows names its start' smp.rs 'turn_down_if(start + k > groups_of_table(WIDTH) && k > 0,' \
    'turn_down_if(start + k > groups_of_table(WIDTH) || start >= groups_of_table(WIDTH),'
small 'C1h: a single order above 7 accepted and not written' smp.rs \
    'turn_down_if(!source.is_in_table(WIDTH) || !target.is_in_table(WIDTH), TurnedDown::Failed)?;' \
    'if !source.is_in_table(WIDTH) || !target.is_in_table(WIDTH) { return Ok(()); }'
small '93h: a group above 7 written' smp.rs 'usize::from(group) < groups_of_table(WIDTH)' 'group <= 127'
small "51h: the table's byte first in its row" permission.rs 'number_of(row).to_be_bytes()' 'number_of(row).to_le_bytes()'
small '51h: row 1 ends at group 7' permission.rs 'row_1\[\.\.LARGE - WIDTH\]\.fill(0xff);' ''
small 'a table of 2,048 bytes read' tables.rs 'match permissions.as_chunks() {' \
    'let size = if permissions.len() == 2048 { 8 } else { permissions.len() }; match permissions[..size].as_chunks() {'
small 'a table of 2,048 bytes written' tables.rs 'match permissions.as_chunks_mut() {' \
    'let size = if permissions.len() == 2048 { 8 } else { permissions.len() }; match permissions[..size].as_chunks_mut() {'
# The console, which is the same for both shelves.
large 'console: a row packed from the wrong end' console.rs 'row\.iter_mut()\.rev()' 'row.iter_mut()'
small 'console: a row read from the wrong end' console.rs 'row\.iter()\.rev()\.zip' 'row.iter().zip'
large "console: a byte's groups packed from the wrong end" console.rs '!= 0) << j' '!= 0) << (7 - j)'
large 'console: the bits for groups 0 and 1 left out' console.rs 'let bytes = row' \
    'let mut choices = *choices; choices[..2].fill(0); let bytes = row'
large 'console: a group is on only by a 1' console.rs 'u8::from(eight\[j\] != 0)' 'u8::from(eight[j] == 1)'
large 'console: on and complete cut to a byte' console.rs 'on != 0, complete != 0' 'on as u8 != 0, complete as u8 != 0'
large 'console: on in the byte of the other group' console.rs '\[a, b | flag(on, NEW_VALUE)\]' '[a | flag(on, NEW_VALUE), b]'
large 'console: UPDATE COMPLETE in bit 1' console.rs 'UPDATE_COMPLETE: u8 = 1 << 0' 'UPDATE_COMPLETE: u8 = 1 << 1'
large 'console: what is not used is left as it was' console.rs 'body\.fill(0);' ''
large 'console: no fill for an odd number of phys' console.rs '4 \* entries\.len()\.div_ceil(2)' '2 * entries.len()'
large 'console: participating only by a 1' console.rs 'flag(participating != 0,' 'flag(participating == 1,'
large 'console: 128 phys refused' console.rs '(entries, MOST_PHYS)' '(entries, MOST_PHYS - 1)'
large 'console: 64 rows taken, and 63 written' console.rs '(choices, MOST_ROWS)?;' \
    '(choices, MOST_ROWS + 1)?; let choices = \&choices[..choices.len().min(MOST_ROWS)];'
large 'console: a list with a part of an entry taken' console.rs '(entries, \[\])' '(entries, _)'
large 'console: 21 only where the request does not fit' console.rs 'built(try_report(request, first_group, count))' \
    'built(if (8..ROOM).contains(\&request.len()) { Ok(8) } else { try_report(request, first_group, count) })'
large 'console: 23 before 22' console.rs 'let entries = whole' 'below_128(first_phy)?; let entries = whole'
large 'console: 24 before 23, phys' console.rs 'let first = below_128(first_phy)?;' \
    'refuse_if(first_phy as usize + entries.len() <= MOST_PHYS \&\& !entries.iter().all(is_fair), Refusal::TurnedDown)?; let first = below_128(first_phy)?;'
large 'console: 24 before 23, a single order' console.rs 'let (a, b) = (below_128(a)?, below_128(b)?);' \
    'refuse_if(a < 2 || b < 2, Refusal::TurnedDown)?; let (a, b) = (below_128(a)?, below_128(b)?);'
large 'console: numbers cut to a byte' console.rs 'u8::try_from(number)\.ok()' 'Some(number as u8)'
large 'console: a number of rows cut to a byte' console.rs 'u8::try_from(count)\.ok()' 'Some(count as u8)'
large 'console: first phy 128 taken with no phys' console.rs 'let first = below_128(first_phy)?;' \
    'let first = if entries.is_empty() { first_phy as u8 } else { below_128(first_phy)? };'
large 'console: priority 16 taken' console.rs 'priority <= HIGHEST_PRIORITY' 'priority <= HIGHEST_PRIORITY + 1'
large 'console: 24 though every shelf answers 10h' console.rs 'some_shelf_has_them && ' ''
large 'console: no 24 up to phy 127' console.rs 'entries\.len() <= MOST_PHYS;' 'entries.len() < MOST_PHYS;'
large 'console: 24 for no rows' console.rs '!choices\.is_empty() && ' ''
large 'console: a start above 127 read' console.rs '(below_128(start\.into())\.map_err(|_| Refusal::NoResponse)?, ' '(start, '
large 'console: rows beyond group 127 read' console.rs 'usize::from(start) + count > GROUPS' 'usize::from(start) + count > GROUPS + 1'
large 'console: an accepted report of four bytes read' console.rs '(REPORT_ZONE_PERMISSION, ACCEPTED) {' \
    '(REPORT_ZONE_PERMISSION, ACCEPTED) || rest.is_empty() {'
large 'console: bytes 8 to 11 looked at' console.rs 'byte_4 != 0 ||' 'rest[4..8] != [0; 4] || byte_4 != 0 ||'
large 'console: the length field not looked at' console.rs 'rest\.len() != 4 \* usize::from(dwords)' 'false'
large 'console: another length than four bytes read' console.rs 'refuse_if(!rest\.is_empty(), Refusal::NoResponse)?;' ''
large 'console: 93h with 11h read' console.rs 'ACCEPTED | 0x02 | 0x03 | 0x10' 'ACCEPTED | 0x02 | 0x03 | 0x10 | 0x11'
large 'console: 25 before 21' console.rs 'rows\.len() < ROWS_ROOM,' 'rows.len() < ROWS_ROOM \&\& response.starts_with(\&[RESPONSE_TYPE]),'
large 'console: a group that is on is read as its bit' console.rs 'byte >> j & 1)' 'byte \& 1 << j)'
# Zone sheets: what a careless reader takes, and what a careless writer leaves out.
for shelf in large small; do
    $shelf 'sheets: the last group out of range' sheets.rs 'FIRST_NAMED\.\.groups_of_table(WIDTH)' \
        'FIRST_NAMED..groups_of_table(WIDTH) - 1'
done
large 'sheets: the right asked once for all' sheets.rs 'let mut lines = 0;' \
    'let mut lines = 0; let source = if may_change_zoning(rows, source) { Group::low_7_bits(1) } else { source };'
large 'sheets: leading zeros taken' sheets.rs 'digits && (field == .*' 'digits'
large 'sheets: a fourth field passed over' sheets.rs 'fields\.next()\.is_none()\.then_some(three)' 'Some(three)'
large 'sheets: any number but 0 is on' sheets.rs '"1" => Some(true),' 'field if is_number(field) \&\& field != "0" => Some(true),'
large 'sheets: the last line taken without its end' sheets.rs 'str::from_utf8(line)\.ok()?\..*' \
    'str::from_utf8(line).ok()?; let text = text.strip_suffix(char::from(10)).unwrap_or(text);'
large 'sheets: LF alone does not end a line' sheets.rs '\.unwrap_or(text);' '?;'
large 'sheets: an empty line passed over' sheets.rs 'split_inclusive(|&byte| byte == LF)' \
    'split_inclusive(|\&byte| byte == LF).filter(|line| **line != [LF])'
large 'sheets: numbers modulo 2^64' sheets.rs 'number\.parse()\.ok()\.and_then(Group::from_outside)' \
    'u8::try_from(number.bytes().fold(0, |sum: u64, digit| sum.wrapping_mul(10).wrapping_add(u64::from(digit - 48)))).ok().and_then(Group::from_outside)'
large 'sheets: group 1 taken' sheets.rs 'FIRST_NAMED\.\.groups_of_table(WIDTH)' '1..groups_of_table(WIDTH)'
large 'sheets: no right before no such group' sheets.rs 'let (a, b) = (named_group' \
    'fail_if(!may_change_zoning(rows, source), Cause::NoRight)?; let (a, b) = (named_group'
large 'sheets: no such group before bad text' sheets.rs 'let on = switch(on)' \
    'for number in [a, b] { if is_number(number) { named_group::<WIDTH>(number)?; } } let on = switch(on)'
large "sheets: the line's number one off" sheets.rs 'return Imported { refusal: 0, lines,' 'return Imported { refusal: 0, lines: lines - 1,'
large 'sheets: the lines before the failing one undone' sheets.rs 'Ok(obey(rows, source, sheet))' \
    'let before = rows.to_vec(); let answer = obey(rows, source, sheet); if answer.cause != 0 { rows.copy_from_slice(\&before); } Ok(answer)'
large 'sheets: carried modulo 128' sheets.rs 'source_from_outside(&arriving, carried)' 'source_from_outside(\&arriving, carried \& 0x7f)'
large 'sheets: 3 before 2' sheets.rs 'let place = arriving' 'refuse_if(sheet.len() > MOST, Refusal::Room)?; let place = arriving'
large 'sheets: 88,012 bytes taken' sheets.rs 'sheet\.len() > MOST' 'sheet.len() > MOST + 1'
large 'sheets: descending' sheets.rs 'named::<WIDTH>()\.flat_map' 'named::<WIDTH>().rev().flat_map'
large 'sheets: LF instead of CR LF' sheets.rs '{b},1\\r\\n' '{b},1\\n'
large "sheets: the higher group's row read" sheets.rs 'filter(|&(a, b)| reaches(a, b))' 'filter(|\&(a, b)| reaches(b, a))'
large 'sheets: room for what there is is room enough' sheets.rs 'room(sheet, MOST)?;' 'room(sheet, write(rows, \&mut [0; MOST]))?;'
small 'sheets: groups modulo 8' sheets.rs 'number\.parse()\.ok()\.and_then(Group::from_outside)' \
    'number.parse().ok().and_then(Group::from_outside).map(|group| Group::low_7_bits(group.number() % 8))'
# Saved zoning: what a careless reader takes, a careless writer writes, and refusals in another order.
large 'files: equal neighbours taken as ascending' saved.rs 'pairs\.is_sorted_by(|one, next| one < next)' \
    'pairs.is_sorted_by(|one, next| one <= next)'
small 'files: a > b taken' saved.rs 'a <= b && ' ''
large 'files: the offset ignored' saved.rs 'refuse_if(self\.offset != 0, Refusal::FileOffset)' 'Ok(())'
small "files: the file's length field ignored" saved.rs 'self\.length as usize != file\.len() || ' ''
large 'files: little-endian counts' saved.rs 'u16::from_be_bytes(\[p, q\])' 'u16::from_le_bytes([p, q])'
small 'files: a write before the last check' saved.rs 'let phys = phy_table_mut(phys)?;' \
    'let phys = phy_table_mut(phys)?; if file.len() > TRAILER { start_up::<WIDTH>(permissions); }'
large 'files: version 2 read by the reader of version 1 as version 1' saved.rs 'VERSION_2 => return Err(Refusal::FileVersion2),' \
    'VERSION_2 => {}'
large 'files: a version 2 file of 12 or 13 bytes too short' saved.rs 'ok_or(Refusal::FileLengths)' 'ok_or(Refusal::FileTooShort)'
small 'files: a reserved bit in byte 0 taken' saved.rs 'RESERVED: \[u8; 2\] = \[0xe0, 0x80\]' 'RESERVED: [u8; 2] = [0xc0, 0x80]'
small "files: a phy's group above 7 taken" saved.rs 'may_be_written::<WIDTH>' 'may_be_written::<16>'
large 'files: 39 before 38' saved.rs 'let is_in_range = zones\.iter()' \
    'refuse_if(!zones.iter().all(could_be_written::<WIDTH>), Refusal::FileZone)?; let is_in_range = zones.iter()'
large 'files: pairs of groups 0 and 1 written' saved.rs '(FIRST_NAMED\.\.groups)\.flat_map' '(0..groups).flat_map'
small 'files: rows 0 and 1 of any content saved' saved.rs 'is_mutual && rows\[\.\.FIRST_NAMED\] == .*' 'is_mutual'
large 'files: 41 before 40' saved.rs 'let (phys, rows) = (phy_table(phys)?, permission_table::<WIDTH>(permissions)?);' \
    '& refuse_if(file.len() >= ROOM \&\& !zones_of(phys).iter().all(could_be_written::<WIDTH>), Refusal::TablePhys)?;'
small 'files: 40 before 3' saved.rs 'let rows = permission_table::<WIDTH>(permissions)?;' \
    '& refuse_if(!is_as_described(rows), Refusal::TablePermissions)?;'
exit $missed
