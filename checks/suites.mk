# Builds the test suites of libgpiod 2.2.1 and 1.6.3, whose sources stand in this folder as they are: make -f suites.mk MOCKUP=.., with MOCKUP
# the library that stands for their libgpiomockup. Their own configure takes minutes on a busy machine, and finds one thing that the
# sources need: the version.
CC ?= cc
CXX ?= c++
NEW = libgpiod-2.2.1
OLD = libgpiod-1.6.3
PYTHON = /usr/bin/python3
FLAGS = -O1 -fPIC -pthread -D_GNU_SOURCE
C_NEW = $(CC) $(FLAGS) -std=gnu89 -DGPIOD_VERSION_STR='"2.2.1"' -I$(NEW)/include -I$(NEW)/tests/gpiosim -I$(NEW)/tests/gpiosim-glib \
  -I$(NEW)/tests/harness -DG_LOG_DOMAIN='"gpiod-test"'
C_OLD = $(CC) $(FLAGS) -std=gnu89 -DGPIOD_VERSION_STR='"1.6.3"' -I$(OLD)/include -I$(OLD)/tests/mockup -DG_LOG_DOMAIN='"gpiod-test"'
CXX_NEW = $(CXX) -O0 -fPIC -pthread -std=gnu++17 -I$(NEW)/bindings/cxx -I$(NEW)/include -I$(NEW)/tests/gpiosim -Icatch2/include -Icatch2/extras
CXX_OLD = $(CXX) -O0 -fPIC -pthread -std=gnu++17 -I$(OLD)/bindings/cxx -I$(OLD)/include -I$(OLD)/tests/mockup
GLIB := $(shell pkg-config --cflags --libs gio-2.0 glib-2.0)
SIM := $(shell pkg-config --cflags --libs libkmod mount)
EDIT := $(shell pkg-config --cflags --libs libedit)
TOOLS = gpiodetect gpioget gpioinfo gpiomon gpionotify gpioset

all: new old
new: new/gpiod-test new/gpiod-cxx-test $(addprefix new/,$(TOOLS)) new/python
old: old/gpiod-test old/gpiod-cxx-test old/gpiod.so old/gpiomockup.so

new/libgpiod.so:
	@mkdir -p new
	$(C_NEW) -fvisibility=hidden -shared -Wl,-soname,$(@F) -o $@ $(NEW)/lib/*.c

new/libgpiosim.so:
	@mkdir -p new
	$(C_NEW) -fvisibility=hidden -shared -Wl,-soname,$(@F) -o $@ $(NEW)/tests/gpiosim/gpiosim.c $(SIM)

new/gpiod-test: new/libgpiod.so new/libgpiosim.so
	$(C_NEW) -o $@ $(NEW)/tests/*.c $(NEW)/tests/harness/*.c $(NEW)/tests/gpiosim-glib/*.c $^ $(GLIB)

new/gpio%: new/libgpiod.so
	$(C_NEW) -DGPIOSET_INTERACTIVE -o $@ $(NEW)/tools/$(@F).c $(NEW)/tools/tools-common.c $^ $(EDIT)

# Catch2 3, which Debian 12 hasn't, is one file of its sources.
catch2/include/catch2/catch_all.hpp:
	@mkdir -p $(@D)
	echo '#include <catch_amalgamated.hpp>' >$@

new/catch2.o:
	@mkdir -p new
	$(CXX_NEW) -c -o $@ catch2/extras/catch_amalgamated.cpp

cxx_new = $(patsubst $(NEW)/bindings/cxx/%.cpp,new/cxx/%.o,$(wildcard $(NEW)/bindings/cxx/*.cpp $(NEW)/bindings/cxx/tests/*.cpp))
new/cxx/%.o: $(NEW)/bindings/cxx/%.cpp
	@mkdir -p $(@D)
	$(CXX_NEW) -c -o $@ $<

$(filter new/cxx/tests/%,$(cxx_new)): catch2/include/catch2/catch_all.hpp

new/gpiod-cxx-test: $(cxx_new) new/catch2.o new/libgpiod.so new/libgpiosim.so
	$(CXX_NEW) -o $@ $^

# (it builds beside its sources, where its tests look for it)
new/python: new/libgpiod.so new/libgpiosim.so
	mkdir -p $(NEW)/lib/.libs $(NEW)/tests/gpiosim/.libs
	cp new/libgpiod.so $(NEW)/lib/.libs && cp new/libgpiosim.so $(NEW)/tests/gpiosim/.libs
	cd $(NEW)/bindings/python && TOP_SRCDIR=$(abspath $(NEW)) TOP_BUILDDIR=$(abspath $(NEW)) $(PYTHON) build_tests.py
	touch $@

old/libgpiod.so:
	@mkdir -p old
	$(C_OLD) -fvisibility=hidden -shared -Wl,-soname,$(@F) -o $@ $(OLD)/lib/*.c

old/gpiod-test: old/libgpiod.so
	$(C_OLD) -o $@ $(OLD)/tests/*.c $^ $(MOCKUP) $(GLIB)

cxx_old = $(patsubst $(OLD)/bindings/cxx/%.cpp,old/cxx/%.o,$(wildcard $(OLD)/bindings/cxx/*.cpp $(OLD)/bindings/cxx/tests/*.cpp))
old/cxx/%.o: $(OLD)/bindings/cxx/%.cpp
	@mkdir -p $(@D)
	$(CXX_OLD) -c -o $@ $<

old/gpiod-cxx-test: $(cxx_old) old/libgpiod.so
	$(CXX_OLD) -o $@ $^ $(MOCKUP)

old/%.so:
	$(C_OLD) $(shell $(PYTHON)-config --includes) -shared -o $@ $(filter %.c,$^) $(filter %.so,$^) $(if $(findstring mockup,$@),$(MOCKUP))
old/gpiod.so: $(OLD)/bindings/python/gpiodmodule.c old/libgpiod.so
old/gpiomockup.so: $(OLD)/bindings/python/tests/gpiomockupmodule.c old/libgpiod.so

.PHONY: all new old
