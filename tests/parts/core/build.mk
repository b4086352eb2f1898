# Compiles what all benches of core/ have in common into the folder INTO: Verilator's own sources,
# and the headers of common.h. MADE.mk is a makefile that Verilator wrote.
include $(MADE).mk

common: $(VM_GLOBAL_FAST:%=$(INTO)/%.o) $(INTO)/common.h.gch

$(INTO)/%.o: %.cpp
	$(CXX) $(CXXFLAGS) $(CPPFLAGS) -c -o $@ $<

$(INTO)/common.h.gch: $(INTO)/common.h
	$(CXX) $(CXXFLAGS) $(CPPFLAGS) -x c++-header -o $@ $<
