#!/bin/sh
# Lists the lines of src/ where a place of one of the points of docs/DESIGN-PASS.md can stand: points.sh POINT [COMMIT].
# Without a commit it reads the working tree. It lists candidates: docs/DESIGN-PASS.md says which of them are places. Some patterns are of
# forms that stood at the first commit of that page and are gone, so that it can be counted again.
point=$1
commit=$2

lines() {
    git grep -nE "$1" $commit -- 'crates/*/src/*.rt'
}

case $point in
1)  # own enums; flags and outcomes beside values; numbers for kinds
    lines '^ *(pub )?enum |^ *(pub )?[a-z_]+: (bool|(io::|fmt::)?Result<?.*),$|-> (io::Result<)?\(.*(bool|Result|Option<)'
    lines 'fn .*-> (u8|Option<.*Refusal>|Option<\(u8.*)$|: u8,$|script: u8|const [A-Z_]+: u8|0x1000[01],'
    ;;
2)  # functions and types of like names and fields, arms that build the same
    lines '^ *(pub )?fn (number|script|place|layer|pair|into_item|into_stream|gives|gives_at)\b|^(pub )?(struct|enum) '
    lines 'Some\(item\)\) => (\{|match|if|Poll)|Report \{$|Line::[A-Z][a-z]+ \{|Step::Full\('
    ;;
3)  # loops, counters, parts of slices by index
    lines '^ *(loop|while .*|for [a-z_]+ in .*) \{$|[a-z_.]+ \+= |\[at\]|\[self\.at\]|at \+ |bytes\[[0-9]|\[[a-z_.0-9]*\.\.[a-z_.]*'
    ;;
4)  # answers and results taken apart and built again, equality by parts, conversions
    lines '(Pending|None|Some\([a-z]+\)|Ok\(\(\)\)|Err\(_\))\)? => (return )?(Poll::)?(Pending|Ready\((None|Some\([a-z]+\))\)|Ok\(|Err\()'
    lines '=> (true|false),| && .*\.1|^impl From|^impl .*(PartialEq|Ord|Clone|Display)| as u64| as usize'
    ;;
5)  # fields and facts that come together
    lines 'poll: u64|watts,? |script: u8, place|Right |first: &mut|is_ok .*written|\.written ≡|ghost_name'
    lines 'ensures (stream|callback|polled|parts) '
    ;;
6)  # arrays and lengths
    lines '\blen: usize|\bat: usize|usize\)( \{)?$|\[[a-z0-9'"'"']+; [0-9A-Z_]+\]'
    ;;
7)  # traits of one method, switches, tables
    lines '^pub trait |match turn|\bdyn |: fn\('
    ;;
esac
