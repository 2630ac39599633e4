/// The suites of tests, by their names.
#pragma once

class QObject;

QObject *connectionTests();
QObject *expressionTests();
QObject *failureTests();
QObject *jsonTests();
QObject *objectTests();
QObject *sessionTests();
