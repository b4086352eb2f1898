# A version is good for one that is asked for where it isn't older and its first two numbers are the
# same, as long as the first is 0.
set(PACKAGE_VERSION "@VERSION@")
set(PACKAGE_VERSION_COMPATIBLE FALSE)
string(REGEX MATCH "^0\\.[0-9]+|^[0-9]+" _dvg_line "${PACKAGE_VERSION}")
string(REGEX MATCH "^0\\.[0-9]+|^[0-9]+" _dvg_asked "${PACKAGE_FIND_VERSION}")
if(_dvg_line STREQUAL _dvg_asked AND NOT PACKAGE_VERSION VERSION_LESS PACKAGE_FIND_VERSION)
    set(PACKAGE_VERSION_COMPATIBLE TRUE)
endif()
if(PACKAGE_VERSION STREQUAL PACKAGE_FIND_VERSION)
    set(PACKAGE_VERSION_EXACT TRUE)
endif()
