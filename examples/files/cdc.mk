# make -f cdc.mk NET=design.v CON=cdc.toml: the verdict in cdc.txt, made again where one of the two changed
cdc.txt: $(NET) $(CON)
	sh examples/files/cdc.sh $(NET) $(CON) >$@.new || { cat $@.new; exit 1; }
	mv $@.new $@
