# find_package(dvg) gives dvg::dvg, the shared library, and dvg::static, the archive.
get_filename_component(_dvg_prefix "${CMAKE_CURRENT_LIST_DIR}/../../@UP@" ABSOLUTE)
if(NOT TARGET dvg::dvg)
    add_library(dvg::dvg SHARED IMPORTED)
    set_target_properties(dvg::dvg PROPERTIES
        IMPORTED_LOCATION "${_dvg_prefix}/@LIBDIR@/@SONAME@"
        IMPORTED_SONAME "@SONAME@"
        INTERFACE_INCLUDE_DIRECTORIES "${_dvg_prefix}/include")
    add_library(dvg::static STATIC IMPORTED)
    set_target_properties(dvg::static PROPERTIES
        IMPORTED_LOCATION "${_dvg_prefix}/@LIBDIR@/libdvg.a"
        INTERFACE_INCLUDE_DIRECTORIES "${_dvg_prefix}/include")
endif()
