# make -j 16 -f parts.mk FILE=berlin-raw.osm.pbf N=16: imports FILE in N parts, and merges them into whole.db.
# A part is done once its import has exited with 0, which the mark part-FROM-TO.done says; the database of an import that
# was killed is no mark. So a second make does what is missing.
PBFROW ?= pbfrow
N ?= 16
import_part := $(dir $(lastword $(MAKEFILE_LIST)))import_part
from = $(firstword $(subst -, ,$*))
to = $(lastword $(subst -, ,$*))

whole.done:
include plan.mk

plan.mk: $(FILE)
	$(PBFROW) ranges $(FILE) $(N) > plan
	sed 's/^\(.*\) \(.*\)$$/parts += \1-\2/' plan > $@.new
	mv $@.new $@

whole.done: $(parts:%=part-%.done)
	$(PBFROW) merge whole.db $(foreach part,$(parts),part-$(firstword $(subst -, ,$(part))).db)
	touch $@

part-%.done:
	PBFROW=$(PBFROW) $(import_part) $(FILE) $(from) $(to)
	touch $@
