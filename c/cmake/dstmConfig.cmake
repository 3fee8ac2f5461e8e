# What find_package(dstm) takes: dstm::dstm is the archive, and dstm::shared the shared library.
get_filename_component(dstm_prefix "${CMAKE_CURRENT_LIST_DIR}/../../.." ABSOLUTE)
if(NOT TARGET dstm::dstm)
  add_library(dstm::dstm STATIC IMPORTED)
  set_target_properties(dstm::dstm PROPERTIES
    IMPORTED_LOCATION "${dstm_prefix}/lib/libdstm.a"
    INTERFACE_INCLUDE_DIRECTORIES "${dstm_prefix}/include")
endif()
if(NOT TARGET dstm::shared AND EXISTS "${dstm_prefix}/lib/libdstm.so")
  add_library(dstm::shared SHARED IMPORTED)
  set_target_properties(dstm::shared PROPERTIES
    IMPORTED_LOCATION "${dstm_prefix}/lib/libdstm.so"
    INTERFACE_INCLUDE_DIRECTORIES "${dstm_prefix}/include")
endif()
unset(dstm_prefix)
