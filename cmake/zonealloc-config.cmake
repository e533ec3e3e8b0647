# zonealloc::zonealloc is the archive alone, for programs with memory functions of their own. With zonealloc::malloc memory is from malloc.
get_filename_component(zonealloc_prefix "${CMAKE_CURRENT_LIST_DIR}/../../.." ABSOLUTE)
if(NOT TARGET zonealloc::zonealloc)
  add_library(zonealloc::zonealloc STATIC IMPORTED)
  set_target_properties(zonealloc::zonealloc PROPERTIES
    IMPORTED_LOCATION "${zonealloc_prefix}/lib/libzonealloc.a"
    INTERFACE_INCLUDE_DIRECTORIES "${zonealloc_prefix}/include")
  add_library(zonealloc::malloc INTERFACE IMPORTED)
  set_target_properties(zonealloc::malloc PROPERTIES
    INTERFACE_LINK_LIBRARIES "zonealloc::zonealloc;${zonealloc_prefix}/lib/libzonealloc_malloc.a")
endif()
unset(zonealloc_prefix)
