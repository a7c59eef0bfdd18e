# All widths of all designs of a folder, with make -j, in the folder at hand:
#
#     make -s -j4 -k -f tools/widths.mk DESIGNS=folder RUNS=runs WIDTHS="8 9 10"
#
# With WIDTHS=least it runs `gafkelam least` for each placement there, with or without a route, up to MOST tracks (16).
#
# A width whose report in RUNS is of the same files and options is not run again (tools/one_width). GAFKELAM names
# another program than the one beside these tools, and OPTIONS what stands behind its words, as --conflicts 100000.
USAGE := usage: make -s -j4 -k -f tools/widths.mk DESIGNS=folder RUNS=runs WIDTHS="8 9 10"
TOOLS := $(shell dirname "$(strip $(MAKEFILE_LIST))")
RUNS ?= runs
# Blanks in names stand as ␣ while make has them, whose words blanks would end.
ENDING := $(if $(filter-out least,$(WIDTHS)),route,place)
NAMES := $(shell cd "$(or $(DESIGNS),/dev/null)" 2>/dev/null && ls | sed -n 's/ /␣/g; s/\.$(ENDING)$$//p')
ifeq ($(and $(DESIGNS),$(WIDTHS)),)
$(error $(USAGE))
endif
ifeq ($(NAMES),)
$(error no file of $(DESIGNS) ends in .$(ENDING); $(USAGE))
endif
ALL := $(foreach name,$(NAMES),$(foreach width,$(WIDTHS),width/$(name).$(width)))

export OPTIONS GAFKELAM MOST
.PHONY: all $(ALL)
all: $(ALL)
	@"$(TOOLS)/width_table" "$(RUNS)"

# The design and the width are the name without the folder.
$(ALL): width/%:
	@"$(TOOLS)/one_width" "$(DESIGNS)/$(subst ␣, ,$(basename $*))" "$(subst .,,$(suffix $*))" "$(RUNS)"
