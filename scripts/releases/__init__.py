"""What scripts/release is made of: the gate's word, the files of a release, its manual pages, its archive and its package."""
