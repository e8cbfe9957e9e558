# A table in S shares, as many at once as make runs, and merged:
#
#     make -j 8 -f shares.mk W=12 D=11 M=2305843009213693951 ORDER=lex S=8
#
# Share i stands in the file share-i-of-S of this folder, and what merging prints in the file rows. What is there is not made again, and a
# command that fails leaves no file: so the same words go on where they were stopped. Each table has a folder of its own.
table = $(W) $(D) $(M) $(ORDER)
shares = $(patsubst %,share-%-of-$(S),$(shell seq 0 $$(( $(S) - 1 ))))

rows: $(shares)
	mzv_merge merge $(table) $(S) $^ >$@.new
	mv $@.new $@

share-%-of-$(S):
	mzv_merge share $(table) $* $(S) >$@.new
	mv $@.new $@
