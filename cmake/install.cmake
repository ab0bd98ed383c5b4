# What is installed: the library with its header and its files for find_package and pkg-config, the tool
# maize, and the documents. None of it names the prefix, so that it may be moved.
include(CMakePackageConfigHelpers)

install(FILES "${header}" DESTINATION "${CMAKE_INSTALL_INCLUDEDIR}")
install(FILES "${library}" DESTINATION "${CMAKE_INSTALL_LIBDIR}" RENAME libmaizespell.a)

# For find_package. Before 1.0 a minor number may change the calls.
set(package "${CMAKE_INSTALL_LIBDIR}/cmake/maizespell")
configure_package_config_file(cmake/maizespell-config.cmake.in maizespell-config.cmake
    INSTALL_DESTINATION "${package}"
    PATH_VARS CMAKE_INSTALL_LIBDIR CMAKE_INSTALL_INCLUDEDIR)
write_basic_package_version_file(maizespell-config-version.cmake COMPATIBILITY SameMinorVersion)
install(FILES
    "${PROJECT_BINARY_DIR}/maizespell-config.cmake"
    "${PROJECT_BINARY_DIR}/maizespell-config-version.cmake"
    DESTINATION "${package}")

# For pkg-config.
file(RELATIVE_PATH from_pkgconfig "${CMAKE_INSTALL_FULL_LIBDIR}/pkgconfig" "${CMAKE_INSTALL_PREFIX}")
string(REGEX REPLACE "/$" "" from_pkgconfig "${from_pkgconfig}")
foreach(folder LIBDIR INCLUDEDIR)
    file(RELATIVE_PATH from_prefix "${CMAKE_INSTALL_PREFIX}" "${CMAKE_INSTALL_FULL_${folder}}")
    set(pkgconfig_${folder} "\${prefix}/${from_prefix}")
endforeach()
configure_file(cmake/maizespell.pc.in maizespell.pc @ONLY)
install(FILES "${PROJECT_BINARY_DIR}/maizespell.pc" DESTINATION "${CMAKE_INSTALL_LIBDIR}/pkgconfig")

# The tool stands beside its modules, and what is run is a link to it. VERSION holds the version that it says.
set(data "${CMAKE_INSTALL_DATADIR}/maizespell")
file(RELATIVE_PATH from_bin "${CMAKE_INSTALL_FULL_BINDIR}" "${CMAKE_INSTALL_FULL_DATADIR}/maizespell/maize")
file(CREATE_LINK "${from_bin}" "${PROJECT_BINARY_DIR}/maize" SYMBOLIC)
file(WRITE "${PROJECT_BINARY_DIR}/VERSION" "${PROJECT_VERSION}\n")
install(FILES "${PROJECT_BINARY_DIR}/maize" DESTINATION "${CMAKE_INSTALL_BINDIR}")
install(PROGRAMS tools/maize DESTINATION "${data}")
install(DIRECTORY tools/maizetext DESTINATION "${data}" FILES_MATCHING PATTERN "*.py" PATTERN "__pycache__" EXCLUDE)
install(FILES "${PROJECT_BINARY_DIR}/VERSION" DESTINATION "${data}/maizetext")

# The documents, in folders as here, so that what they name is found.
foreach(folder . docs)
    file(GLOB documents CONFIGURE_DEPENDS "${PROJECT_SOURCE_DIR}/${folder}/*.md")
    install(FILES ${documents} DESTINATION "${CMAKE_INSTALL_DOCDIR}/${folder}")
endforeach()
install(FILES examples/crossing.svg DESTINATION "${CMAKE_INSTALL_DOCDIR}/examples")
