# The steps by which an archive is built in parts, for `make`. `examples/shards` writes a makefile that includes this.
#
# The steps are a tree. Step 1 makes the whole. A step K below PARTS joins what the steps 2 K and 2 K + 1 make, and the
# steps from PARTS to 2 PARTS - 1 build a part each. What step K makes are the files K.properties, K.graph and K.offsets
# in this folder; the properties are whole last, so that they stand for all three. `list` is the arc list, and NODES its
# number of pages; it is cut by ranges of pages. If there is no `list`, the archives of the parts have to be there.
# OPTIONS are those of `build`, and WEBGRAPH is the program.
.DELETE_ON_ERROR:
.SUFFIXES:
parts := $(shell seq $(PARTS) $$((2 * $(PARTS) - 1)))
joins := $(shell awk 'BEGIN { for (k = 1; k < $(PARTS); k++) print k "," 2 * k "," 2 * k + 1 }')

1.properties:

ifneq ($(wildcard list),)
# The part that a line is in; an arc that has no page for its source is in the last one, whose step refuses it.
cut := awk -v nodes=$(NODES) -v parts=$(PARTS)
part := /^[ \t\r]*(\#|$$)/ { next } { \
	part = int($$1 * parts / nodes); \
	part = parts + (part < 0 || part >= parts ? parts - 1 : part) \
}
lists $(parts:=.arcs) &: list
	@for part in $(parts); do : >$$part.arcs; done
	@$(cut) '$(part) { \
	    file = part ".arcs"; \
	    if (file != last) { if (last) close(last); last = file } \
	    print >>file \
	}' list
	@touch lists

# A line that is refused is told by its number in the whole list.
$(parts:=.properties): %.properties: %.arcs
	@'$(WEBGRAPH)' build --nodes $(NODES) $(OPTIONS) $*.arcs $* 2>$*.told || { \
	    status=$$?; \
	    line=$$(sed -n 's/^wg: $*\.arcs: line \([0-9]*\): .*/\1/p' $*.told); \
	    [ -z "$$line" ] || line=$$($(cut) -v line=$$line '$(part) \
	        part == $* && ++count == line { print NR; exit }' list); \
	    sed "s|^wg: $*\.arcs: line [0-9]*: |wg: $$(readlink list): line $$line: |" $*.told >&2; \
	    exit $$status; \
	}
endif

define joined
$(word 1,$(1)).properties: $(word 2,$(1)).properties $(word 3,$(1)).properties
	@'$$(WEBGRAPH)' union $$(OPTIONS) $(word 2,$(1)) $(word 3,$(1)) $(word 1,$(1))
endef
comma := ,
$(foreach step,$(joins),$(eval $(call joined,$(subst $(comma), ,$(step)))))
