# find_package(linkbox), then target_link_libraries(firmware linkbox::linkbox)
get_filename_component(linkbox_prefix "${CMAKE_CURRENT_LIST_DIR}/../../.." ABSOLUTE)
if(NOT TARGET linkbox::linkbox)
  add_library(linkbox::linkbox STATIC IMPORTED)
  set_target_properties(linkbox::linkbox PROPERTIES
    IMPORTED_LOCATION "${linkbox_prefix}/lib/liblinkbox.a"
    INTERFACE_INCLUDE_DIRECTORIES "${linkbox_prefix}/include")
endif()
