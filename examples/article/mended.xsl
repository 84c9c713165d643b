<?xml version="1.0" encoding="UTF-8"?>
<xsl:stylesheet version="1.0" xmlns="http://www.w3.org/1999/xhtml"
    xmlns:xsl="http://www.w3.org/1999/XSL/Transform">
<xsl:output method="xml"/>
<xsl:template match="@*|node()"><xsl:copy>
  <xsl:apply-templates select="@*|node()"/></xsl:copy></xsl:template>
<xsl:template match="article"><html>
  <head><title><xsl:value-of select="title"/></title></head>
  <body><xsl:apply-templates/></body></html></xsl:template>
<xsl:template match="title"><h1><xsl:apply-templates/></h1></xsl:template>
<xsl:template match="section"><div class="section">
  <xsl:apply-templates/></div></xsl:template>
<xsl:template match="para"><p><xsl:apply-templates/></p></xsl:template>
<xsl:template match="itemlist"><xsl:if test="item"><ul><xsl:apply-templates/></ul></xsl:if></xsl:template>
<xsl:template match="item"><li><xsl:apply-templates/></li></xsl:template>
<xsl:template match="emph"><em><xsl:apply-templates/></em></xsl:template>
</xsl:stylesheet>
