# find_package(outline): the targets outline::outline, the static library, and outline::shared, where it was installed.
get_filename_component(_outline_prefix "${CMAKE_CURRENT_LIST_DIR}/../../.." ABSOLUTE)
if(NOT TARGET outline::outline)
  add_library(outline::outline STATIC IMPORTED)
  set_target_properties(outline::outline PROPERTIES
    IMPORTED_LOCATION "${_outline_prefix}/lib/liboutline.a"
    INTERFACE_INCLUDE_DIRECTORIES "${_outline_prefix}/include")
endif()
if(NOT TARGET outline::shared AND EXISTS "${_outline_prefix}/lib/liboutline.so")
  add_library(outline::shared SHARED IMPORTED)
  set_target_properties(outline::shared PROPERTIES
    IMPORTED_LOCATION "${_outline_prefix}/lib/liboutline.so"
    INTERFACE_INCLUDE_DIRECTORIES "${_outline_prefix}/include")
endif()
unset(_outline_prefix)
