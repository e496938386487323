# Gives the targets codec-payload::codec-payload, which is shared, and codec-payload::static.
get_filename_component(_libdir "${CMAKE_CURRENT_LIST_DIR}/../.." ABSOLUTE)
get_filename_component(_prefix "${_libdir}/.." ABSOLUTE)
find_path(_include codec_payload.h HINTS "${_prefix}/include" REQUIRED)
if(NOT TARGET codec-payload::codec-payload)
    add_library(codec-payload::codec-payload SHARED IMPORTED)
    set_target_properties(codec-payload::codec-payload PROPERTIES
        IMPORTED_LOCATION "${_libdir}/libcodec_payload.so.0"
        INTERFACE_INCLUDE_DIRECTORIES "${_include}")
    add_library(codec-payload::static STATIC IMPORTED)
    set_target_properties(codec-payload::static PROPERTIES
        IMPORTED_LOCATION "${_libdir}/libcodec_payload.a"
        INTERFACE_INCLUDE_DIRECTORIES "${_include}")
endif()
unset(_include CACHE)
unset(_libdir)
unset(_prefix)
