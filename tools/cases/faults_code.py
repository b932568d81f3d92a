"""Faults in the code, of crates/*/refused: those that `tools/run faults code` tries without a word, and those that no case of `tools/run
faults programs` can find."""

# The copy for the next answer is taken again in the same frame; an answer that is not the root's is refined; a search that is put back
# loses the strand of its top entry.
CODE_FAULTS = ["control/copy_never_pursued", "control/refinement_of_an_inner_answer", "control/put_back_loses_the_top"]
CODE_UNSEEN = {
    "pen/refusal_from_the_start": "the programs put a refusal at the buffer's start anyway, so that the contract alone sees it",
    "xsb_export/refused_with_37": "to_xsb prints the lines, and not the number beside them: the contract alone sees it",
    "xsb_import/text_not_read": "from_xsb reads in pieces, and not by this function: the contract alone sees it",
    "xsb_import/text_read_twice": "from_xsb reads in pieces, and not by this function: the contract alone sees it",
}
