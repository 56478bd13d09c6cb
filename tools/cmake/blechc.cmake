# A controller as a library of CMake:
#
#     include(../blechc/tools/cmake/blechc.cmake)
#     blechc_controller(pump SOURCES pump.blech STATE TEST rows.csv trace.csv)
#     target_link_libraries(firmware PRIVATE pump)
#
# It builds the C text, writes a unit around it, and makes a library NAME of that; its header NAME_unit.h is found by whoever links it. Several SOURCES
# are linked in their order. STATE, PRELUDE and LINES are --state, --prelude and --trap-lines of tools/unit. With TEST a test `NAME` of ctest runs the
# source over the rows, and the library has the self-test for a board.
#
# BLECHC names the program; else the one that the gate left beside this file is taken, or the one that was installed with it, or the `blechc` of the path.
get_filename_component(BLECHC_TOOLS "${CMAKE_CURRENT_LIST_DIR}/.." ABSOLUTE)
find_program(BLECHC NAMES blechc HINTS "${BLECHC_TOOLS}/../crates/blechc/out" "${BLECHC_TOOLS}/../../../bin")
find_program(BLECHC_PYTHON NAMES python3)

function(blechc_controller NAME)
  cmake_parse_arguments(IT "STATE;PRELUDE;LINES" "" "SOURCES;TEST" ${ARGN})
  if(NOT IT_SOURCES)
    message(FATAL_ERROR "blechc_controller(${NAME}): SOURCES are missing")
  endif()
  if(NOT BLECHC OR NOT BLECHC_PYTHON)
    message(FATAL_ERROR "blechc_controller(${NAME}): blechc or python3 isn't there: name it by -DBLECHC=.. or -DBLECHC_PYTHON=..")
  endif()
  set(HERE "${CMAKE_CURRENT_BINARY_DIR}/${NAME}_controller")
  file(MAKE_DIRECTORY "${HERE}")
  set(SOURCES "")
  foreach(SOURCE IN LISTS IT_SOURCES)
    get_filename_component(SOURCE "${SOURCE}" ABSOLUTE)
    list(APPEND SOURCES "${SOURCE}")
  endforeach()
  set(EXPLAIN ${CMAKE_COMMAND} -E env "BLECHC_PROGRAM=${BLECHC}" "${BLECHC_PYTHON}" "${BLECHC_TOOLS}/explain")
  set(OPTIONS "")
  set(MADE "${HERE}/${NAME}_unit.c")
  foreach(PAIR "STATE=--state" "PRELUDE=--prelude" "LINES=--trap-lines")
    string(REPLACE "=" ";" PAIR "${PAIR}")
    list(GET PAIR 0 FIELD)
    list(GET PAIR 1 OPTION)
    if(IT_${FIELD})
      list(APPEND OPTIONS "${OPTION}")
    endif()
  endforeach()
  if(IT_TEST)
    list(GET IT_TEST 0 ROWS)
    list(GET IT_TEST 1 TRACE)
    get_filename_component(ROWS "${ROWS}" ABSOLUTE)
    get_filename_component(TRACE "${TRACE}" ABSOLUTE)
    list(APPEND OPTIONS --test "${ROWS}" "${TRACE}")
    list(APPEND MADE "${HERE}/${NAME}_test.c")
    add_test(NAME "${NAME}" COMMAND ${CMAKE_COMMAND} -E env "BLECHC_PROGRAM=${BLECHC}" "${BLECHC_PYTHON}" "${BLECHC_TOOLS}/test" ${SOURCES} "${ROWS}"
                                    "${TRACE}")
  endif()
  add_custom_command(
    OUTPUT ${MADE}
    COMMAND ${EXPLAIN} build ${SOURCES} > "${HERE}/${NAME}.new"
    COMMAND ${CMAKE_COMMAND} -E rename "${HERE}/${NAME}.new" "${HERE}/${NAME}.c"
    COMMAND "${BLECHC_PYTHON}" "${BLECHC_TOOLS}/unit" "${NAME}" --text "${HERE}/${NAME}.c" --to "${HERE}" ${OPTIONS}
    DEPENDS ${SOURCES} ${ROWS} ${TRACE}
    COMMENT "blechc ${NAME}"
    VERBATIM)
  add_library("${NAME}" STATIC ${MADE})
  set_property(TARGET "${NAME}" PROPERTY C_STANDARD 99)
  target_include_directories("${NAME}" PUBLIC "${HERE}")
endfunction()
