# For each public function of a file: its place, its name, the record that its `ensures` cites (with the definition that a `Writes` is of), and how
# many `requires` it has.
function flush_fn() { if (fn != "" && (all || fn == only)) print FILENAME ":" at "|" fn "|" promise "|" asked; fn = "" }
/^[ ]*(#\[unsafe\(no_mangle\)\] )?pub (extern "C" )?fn / { flush_fn(); fn = $0; sub(/.*fn /, "", fn); sub(/[(<].*/, "", fn); at = FNR; promise = ""; asked = 0 }
/^[ ]*(pub\([a-z]*\) )?fn / { flush_fn() }
/^[ ]*requires/ && fn != "" { asked++ }
/^[ ]*ensures/ && fn != "" {
  p = $0
  if (p ~ /\{/) { sub(/^[^{]*\{ */, "", p); sub(/^\(*/, "", p); w = p; sub(/ .*/, "", w); if (w == "Writes") { sub(/^Writes \(/, "", p); sub(/ .*/, "", p); w = "Writes (" p }; promise = w }
}
END { flush_fn() }
