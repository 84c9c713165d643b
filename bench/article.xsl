<xsl:stylesheet version="1.0" xmlns:xsl="http://www.w3.org/1999/XSL/Transform" xmlns="http://www.w3.org/1999/xhtml">
  <xsl:strip-space elements="*"/>
  <xsl:template match="/">
    <html>
      <head><title><xsl:value-of select="article/title"/></title></head>
      <body><xsl:apply-templates/></body>
    </html>
  </xsl:template>
  <xsl:template match="article">
    <xsl:apply-templates select="title"/>
    <ol><xsl:apply-templates select="section" mode="contents"/></ol>
    <xsl:apply-templates select="section"/>
  </xsl:template>
  <xsl:template match="section" mode="contents">
    <li>
      <xsl:value-of select="title"/>
      <xsl:if test="itemlist"><xsl:text> (lists)</xsl:text></xsl:if>
    </li>
  </xsl:template>
  <xsl:template match="section"><div><xsl:apply-templates/></div></xsl:template>
  <xsl:template match="article/title"><h1><xsl:apply-templates/></h1></xsl:template>
  <xsl:template match="section/title"><h2><xsl:apply-templates/></h2></xsl:template>
  <xsl:template match="para"><p><xsl:apply-templates/></p></xsl:template>
  <xsl:template match="item/para"><xsl:apply-templates/></xsl:template>
  <xsl:template match="para[emph]"><p><strong>Note: </strong><xsl:apply-templates/></p></xsl:template>
  <xsl:template match="itemlist">
    <ul><xsl:for-each select="item"><li><xsl:apply-templates/></li></xsl:for-each></ul>
  </xsl:template>
  <xsl:template match="emph">
    <xsl:choose>
      <xsl:when test="emph"><strong><xsl:apply-templates/></strong></xsl:when>
      <xsl:otherwise><em><xsl:apply-templates/></em></xsl:otherwise>
    </xsl:choose>
  </xsl:template>
</xsl:stylesheet>
