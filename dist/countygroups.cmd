@node "%~dp0countygroups.mjs" %*
@exit /b %errorlevel%
